GET "LIBHDR2"
STATIC $( TSIZE = 0; USED = 0 $)

LET HASH(S) = VALOF
$( LET H = 0
   FOR I = 1 TO GETBYTE(S, 0) DO
      H := (H * 7 + GETBYTE(S, I)) & 32767
   RESULTIS H REM TSIZE
$)

LET INSERT(T, S) BE
$( LET H = HASH(S)
   UNTIL T!H = 0 DO H := H = 30 -> 0, H + 1
   T!H := S
   USED := USED + 1
$)

LET START() BE
$( LET T = VEC 30
   FOR I = 0 TO 30 DO T!I := 0
   INSERT(T, "APPLE")
   INSERT(T, "PEAR")
   INSERT(T, "PLUM")
   WRITEF("%N WORDS*N", USED)
   FOR I = 0 TO 30 DO
      UNLESS T!I = 0 DO WRITEF("%I3 %S*N", I, T!I)
$)
