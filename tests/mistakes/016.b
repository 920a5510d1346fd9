GET "LIBHDR2"

// mean of the odd numbers of a vector
LET ODDMEAN(V, N) = VALOF
$( LET SUM, COUNT = ?, ?
   SUM := COUNT = 0
   FOR I = 0 TO N - 1 DO
   $( IF V!I REM 2 = 0 LOOP
      SUM := SUM + V!I
      COUNT := COUNT + 1
   $)
   IF COUNT = 0 RESULTIS 0
   RESULTIS SUM / COUNT
$)

LET START() BE
$( LET T = TABLE 3, 8, 5, 13, 21, 34
   WRITEF("mean of the odd ones: %N*N", ODDMEAN(T, 6))
$)
