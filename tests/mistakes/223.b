// Drill in arithmetic: a table of procedures
GET "LIBHDR2"
GLOBAL $( OPS:100; SIGNS:101 $)

LET ADD(A, B) = A + B
AND SUB(A, B) = A - B
AND MUL(A, B) = A * B
AND DIV(A, B) = B = 0 -> 0, A / B

LET APPLY(K, A, B) = VALOF
$( LET R = ?
   R := OPS!K(A, B)
   WRITEF("%N %C %N = %N*N", A, SIGNS%K, B, R)
   RESULTIS R
$)

LET START() BE
$( LET V = VEC 4
   LET X = 7
   OPS, SIGNS := V, "+-**/"
   OPS!1 := ADD
   OPS!2 := SUB
   OPS!3 := MUL
   OPS!4 := DIV
   FOR K = 1 TO 4 DO X := APPLY(K, X, 3)
   WRITEF("result %N*N", X)
$)
