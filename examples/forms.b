GET "LIBHDR2"
MANIFEST $( M = 3; N = M * 2 $)
STATIC $( S = 5 $)
GLOBAL $( G : 200 $)

LET F(A, B) = A - B
AND P(X) BE $( IF X = 0 RETURN; WRITEN(X); WRCH(' ') $)

LET FIRST(X) = VALOF
$( FOR I = 1 TO 10 DO IF I * I > X RESULTIS I
   RESULTIS 0
$)

LET START() BE
$( LET V = VEC 5
   LET A, B = 1, ?
   LET W, T = "AB", TABLE 7, 8, 9
   LET INNER(X) = X + M
   B := 2
   A, B := B, A
   P(A); P(B); P(T!1); P(!T); P(W%1); P(W%2)
   V!0 := 4; !(V + 1) := 5; V%8 := 6
   P(V!0 + V!1); P(V%8)
   G := 10; S := S + 1; P(G); P(S)
   P(F(7, N)); P(-M); P(+M); P(NOT -8); P(INNER(1))
   P(@V!1 = V + 1 -> 11, 12)
   P(7 * 3 / 2 + 7 REM 3); P((1 << 4) + (32 >> 3))
   P((12 & 10) + (12 | 3) + (6 NEQV 3) + (6 EQV -7))
   P(1 < 2 <= 2 -> 13, 0); P(3 > 2 >= 3 -> 0, 14); P(1 = 1 -> 15, 0); P(1 ~= 1 -> 0, 16)
   P(TRUE & FALSE -> 0, 17); P(FALSE | TRUE -> 18, 0); P(FIRST(20))
   IF A = 2 DO P(1)
   UNLESS A = 2 DO P(99)
   TEST A = 3 THEN P(98) OR P(2)
   $( LET I = 3
      WHILE I > 0 DO $( P(I); I := I - 1 $)
      UNTIL I = 2 DO I := I + 1
      P(I)
      I := I + 1 REPEATWHILE I < 6
      P(I)
      I := I - 2 REPEATUNTIL I <= 0
      P(I + 40)
      $( I := I + 1; IF I = 3 LOOP; IF I > 4 BREAK; P(I) $) REPEAT
   $)
   FOR I = 10 TO 1 BY -4 DO P(I)
   FOR I = 1 TO 5 DO SWITCHON I INTO
   $( CASE 1: P(21); ENDCASE
      CASE 3: P(23) // and then what CASE 4 does
      CASE 4: P(24); ENDCASE
      DEFAULT: P(20)
   $)
   A := 0
L: A := A + 1
   IF A < 3 GOTO L
   P(A)
   WRITEF("%N %C %S %I3*N", 5, 'x', "yz", 42)
   FINISH
$)
