// Prime factors of a number, returned as a vector: V!0 = count
GET "LIBHDR2"

LET FACTORS(N) = VALOF
$( LET V = VEC 32
   LET D = 2
   V!0 := 0
   WHILE N > 1 DO
   $( TEST N REM D = 0
      THEN $( V!0 := V!0 + 1
              V!(V!0) := D
              N := N / D
           $)
      ELSE D := D + 1
   $)
   RESULTIS V
$)

LET SHOW(N) BE
$( LET F = FACTORS(N)
   WRITEF("%N =", N)
   FOR I = 1 TO F!0 DO
   $( IF I > 1 DO WRITES(" **")
      WRITEF(" %N", F!I)
   $)
   NEWLINE()
$)

LET START() BE
$( SHOW(12)
   SHOW(97)
   SHOW(5040)
$)
