// How many numbers up to a million are divisible by 7 but not by 5?
GET "LIBHDR2"

LET wanted(i) = i REM 7 = 0 & i REM 5 ~= 0

// the loop, as a tail call
LET tally(i, n) = i = 0 -> n,
    tally(i - 1, wanted(i) -> n + 1, n)

LET START() BE
$(  WRITEF("%N of 1000*N", tally(1000, 0))
    WRITEF("%N of 1000000*N", tally(1000000, 0))
$)
