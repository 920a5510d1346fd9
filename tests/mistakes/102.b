GET "LIBHDR2"

LET SQRT(N) = VALOF
$( LET OLD, X = 0, N
   UNTIL X = OLD DO
   $( OLD := X
      X := (OLD + N / OLD) / 2
   $)
   RESULTIS X
$)

LET SHOW(N) BE
$( WRITEF("%I4", N)
   WRITEF("%I5*N", SQRT(N))
$)

LET START() BE
$( WRITES("   n root*N")
   SHOW(1)
   SHOW(4)
   SHOW(144)
   SHOW(3)
   SHOW(9)
$)
