/* memory CMD..: runs a command, and prints the most memory that it took, in kilobytes, on the error stream after what it wrote there.
   The status is the command's. A script cannot measure this by itself: what a process took before it became the command counts too. */
#include <stdio.h>
#include <sys/resource.h>
#include <sys/time.h>
#include <sys/types.h>
#include <sys/wait.h>
#include <unistd.h>

int main(int count, char **words) {
    struct rusage usage;
    int status;
    pid_t child;
    if (count < 2) return 125;
    child = fork();
    if (child == 0) {
        execv(words[1], words + 1);
        _exit(126);
    }
    if (child < 0 || wait4(child, &status, 0, &usage) < 0 || !WIFEXITED(status)) return 125;
    fprintf(stderr, "%ld\n", usage.ru_maxrss);
    return WEXITSTATUS(status);
}
