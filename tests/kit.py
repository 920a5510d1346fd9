"""What the scripts beside this and bench/refusals share: the program, its statuses and lines, how it is run, and four programs."""
import os
import re
import resource
import subprocess
import sys

HERE = os.path.dirname(os.path.dirname(os.path.abspath(__file__)))
# the program that the variable BCPL names, else the one that `./bcpl` would run
BCPL = os.environ.get("BCPL") or subprocess.run([os.path.join(HERE, "bcpl"), "--which"], stdout=subprocess.PIPE, text=True, check=True).stdout.strip()

NAME = rb"[A-Z][A-Z0-9.]{0,254}"
SOURCE = rb"line [1-9][0-9]*: (bad byte|bad string|bad escape|number over 32 bits|name over 255 bytes|section tag over 255 bytes|section too long|bad GET|unexpected symbol|wrong section tag|nested too deeply|too many nodes|not declared: N|declared twice: N|dynamic name used in a procedure: N|not a constant|constant divided by zero|CASE repeated|DEFAULT repeated|no loop here|no SWITCHON here|RESULTIS or RETURN not here|label not here: N|global outside 0 to 999|VEC outside 0 to 32767|frame over 65535 words|not assignable|two procedures for one global: N)\n".replace(b": N", b": " + NAME)
OCODE = rb"section [1-9][0-9]*, statement [1-9][0-9]*: (bad word|bad number|truncated|label not set|label set twice|depths disagree|slot above the depth|too long)\n"
INTCODE = rb"segment [1-9][0-9]*, item [1-9][0-9]*: (bad letter|bad number|byte over 255|label not set|label set twice|truncated|too long|frame given twice)\n"
# the lines of each status from 101 on
LINES = {101: SOURCE, 102: OCODE, 103: INTCODE, 104: rb"division by zero\n", 105: rb"(store too small|store limit|too deep)\n", 106: rb"step limit\n",
         107: rb"bad operation\n", 108: rb"no START\n", 109: rb"read fault\n", 110: rb"write fault\n", 111: rb"no memory\n", 112: rb"bad command line\n"}

# four programs, each with its input, the source of the sections before its last, and what it writes
PROGRAMS = {
    "greeting": (b'GET "LIBHDR" LET START() BE WRITES("HELLO*N")\n', b"", b"", b"HELLO\n"),
    "copying": (b'GET "LIBHDR"\nLET START() BE\n$( LET C = RDCH()\n   UNTIL C = ENDSTREAMCH DO $( WRCH(C); C := RDCH() $)\n   WRITEN(RDCH())\n$)\n', b"ABC", b"", b"ABC-1"),
    "left operand first": (b'GET "LIBHDR"\nLET F(P) = VALOF $( !P := 10; RESULTIS 1 $)\nLET START() BE\n$( LET X = 5\n   WRITEN(X + F(@X)); WRCH(\'*S\'); WRITEN(X)\n$)\n', b"", b"", b"6 10"),
    "two sections": (b'GET "LIBHDR"\nGLOBAL $( DOUBLE:100 $)\nLET DOUBLE(N) = N + N\n.\nGET "LIBHDR"\nGLOBAL $( DOUBLE:100 $)\nLET START() BE WRITEN(DOUBLE(21))\n',
                     b"", b'GET "LIBHDR"\nGLOBAL $( DOUBLE:100 $)\nLET DOUBLE(N) = N + N\n.', b"42"),
}


def run(words, data=b"", settings=None, seconds=60):
    """The program on these words, with this input, and these settings in the environment besides its own."""
    return subprocess.run([BCPL] + words, input=data, capture_output=True, timeout=seconds, env=dict(os.environ, **settings) if settings else None)


def is_of_table(done):
    """Whether a run ended with a status and line of the table."""
    if done.returncode in LINES:
        return re.fullmatch(LINES[done.returncode], done.stderr) is not None
    return 0 <= done.returncode <= 100 and done.stderr == b""


def limit_space(megabytes):
    """What runs from here on has so much address space."""
    resource.setrlimit(resource.RLIMIT_AS, (megabytes << 20, megabytes << 20))


def most_memory():
    """The most memory that a run took so far, in megabytes."""
    return resource.getrusage(resource.RUSAGE_CHILDREN).ru_maxrss / 1024


def stop(message):
    print(message)
    sys.exit(1)


def example(name):
    with open(os.path.join(HERE, "examples", name), "rb") as file:
        return file.read()


def library(folder, name):
    """The C file of this name beside this, as a library to load before others. A program that boot/bind made loads none: the script ends."""
    with open(BCPL, "rb") as program:
        if program.read(18)[:4] == b"\x7fELF" and program.seek(16) and program.read(1) == b"\2":
            print("%s loads no library, so its calls cannot be made to fail: nothing is tried" % BCPL)
            print("0 passed, 0 failed")
            sys.exit()
    path = os.path.join(folder, name + ".so")
    subprocess.run(["cc", "-O2", "-shared", "-fPIC", "-o", path, os.path.join(HERE, "tests", name + ".c")], check=True)
    return path
