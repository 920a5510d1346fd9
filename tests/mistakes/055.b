GET "LIBHDR2"

// ring of six numbers, shown once around
LET START() BE
$( LET RING = TABLE 12, 7, 9, 31, 5, 18
   LET I, SUM, DONE = 0, 0, FALSE
   UNTIL DONE DO
   $( LET N = RING!I
      SUM := SUM + N
      WRITEF("%I3 %I5*N", N, SUM)
      I := (I + 1) REM 6
      DONE := N = 0
   $)
   WRITEF("sum %N*N", SUM)
$)
