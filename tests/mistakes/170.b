GET "LIBHDR"
MANIFEST $( N = 4 $)

LET ROWSUM(M, I) = VALOF
$( LET SUM, J = 0, 0
   WHILE J < N DO
   $( SUM := SUM + M!(I*N + J)
      I := I + 1
   $)
   RESULTIS SUM
$)

LET START() BE
$( LET M = VEC N*N-1
   FOR I = 0 TO N*N-1 DO M!I := (I * I) REM 10
   FOR I = 0 TO N-1 DO
   $( FOR J = 0 TO N-1 DO WRITED(M!(I*N + J), 4)
      WRITES("  | ")
      WRITED(ROWSUM(M, I), 4)
      NEWLINE()
   $)
$)
