GET "LIBHDR2"
MANIFEST $( END.OF.CHAIN = -1 $)

// chain of disc sectors, as in a file allocation table
LET WALK(LINK, I) BE
$( LET N = 1
   WHILE LINK!I ~= -1 DO
   $( N := N + 1
      I := LINK!I
   $)
   WRITEF("%N sectors*N", N)
$)

LET START() BE
$( LET LINK = VEC 9
   FOR I = 0 TO 9 DO LINK!I := END.OF.CHAIN
   // file A is 7 5, file B is 0 1 3 4 9, file C is 2 4 9
   LINK!7 := 5
   LINK!0 := 1
   LINK!1 := 3
   LINK!3 := LINK!2 = 4
   LINK!4 := 9
   WALK(LINK, 7)
   WALK(LINK, 0)
$)
