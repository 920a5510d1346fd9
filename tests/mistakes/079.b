GET "LIBHDR2"

LET ATOI(S) = VALOF
$( LET N, I = 0, 1
   $( LET C = S%I
      IF C = 0 RESULTIS N
      UNLESS '0' <= C <= '9' RESULTIS -1
      N := N * 10 + C - '0'
      I := I + 1
   $) REPEAT
$)

LET START() BE
$( WRITEF("%N*N", ATOI("42"))
   WRITEF("%N*N", ATOI("1x"))
   WRITEF("%N*N", ATOI("65536"))
   WRITEF("%N*N", ATOI("123"))
   WRITEF("%N*N", ATOI("7"))
$)
