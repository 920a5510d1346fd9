// bit sets of the numbers 0 to 99
GET "LIBHDR2"
MANIFEST $( N = 99; LASTWORD = N / 32 $)

LET CLEAR(S) BE FOR I = 0 TO LASTWORD - 1 DO S!I := 0

LET INCLUDE(S, E) BE
$( LET W = E / 32
   S!W := S!W | (1 << E REM 32)
$)

LET HAS(S, E) = (S!(E / 32) >> E REM 32 & 1) ~= 0

LET UNION(A, B, R) BE
   FOR I = 0 TO LASTWORD DO R!I := A!I | B!I

LET SHOW(NAME, S) BE
$( WRITEF("%S:", NAME)
   FOR E = 0 TO N DO IF HAS(S, E) DO WRITEF(" %N", E)
   NEWLINE()
$)

LET START() BE
$( LET A, B, C = VEC LASTWORD, VEC LASTWORD, VEC LASTWORD
   CLEAR(A)
   CLEAR(B)
   FOR E = 7 TO N BY 7 DO INCLUDE(A, E)
   FOR E = 11 TO N BY 11 DO INCLUDE(B, E)
   UNION(A, B, C)
   SHOW("sevens", A)
   SHOW("elevens", B)
   SHOW("both", C)
$)
