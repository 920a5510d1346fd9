// Binary search in a sorted table.
GET "LIBHDR2"

LET search(v, n, key) = VALOF
$(  LET lo, hi = 0, n - 1
    WHILE lo <= hi DO
    $(  LET mid = (lo + hi) / 2
        IF v!mid = key THEN RESULTIS mid
        TEST v!mid < key THEN lo := mid + 1 ELSE hi := mid - 1
    $)
$)

LET look(v, n, key) BE
$(  LET k = search(v, n, key)
    TEST k >= 0
    THEN WRITEF("%N is at %N*N", key, k)
    ELSE WRITEF("%N is not there*N", key)
$)

LET START() BE
$(  LET primes = TABLE 2, 3, 5, 7, 11, 13, 17, 19, 23
    look(primes, 9, 13)
    look(primes, 9, 14)
    look(primes, 9, 2)
$)
