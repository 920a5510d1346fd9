GET "LIBHDR2"
GLOBAL $( PACKSTRING:915; UNPACKSTRING:916; COPYSTRING:917; CONCAT:918; APPEND:919 $)
LET START() BE
$( LET V, S, R = VEC 300, VEC 63, VEC 63
   UNPACKSTRING("HELLO", V)
   WRITEF("%N %C%C*N", V!0, V!1, V!5)
   V!1 := 'J'
   WRITEF("%N ", PACKSTRING(V, S))
   WRITEF("%S %N*N", S, S!1)
   COPYSTRING("AB", R)
   WRITEF("%S %N*N", R, R!0)
   WRITEF("%S*N", CONCAT("", "", R))
   WRITEF("%S %N*N", CONCAT("ABC", "DEFG", R), R!1)
   APPEND(R, R)
   WRITEF("%S*N", R)
   // 250 bytes and 10 more
   FOR I = 1 TO 250 DO V!I := '0' + I REM 10
   V!0 := 250
   WRITEF("%N ", PACKSTRING(V, S))
   APPEND(S, "ABCDEFGHIJ")
   WRITEF("%N %C%C%C*N", S%0, S%250, S%251, S%255)
   // in place
   UNPACKSTRING("HELLO", V)
   WRITEF("%N ", PACKSTRING(V, V))
   WRITEF("%S ", V)
   UNPACKSTRING(V, V)
   FOR I = 1 TO V!0 DO WRCH(V!I)
   NEWLINE()
   // lengths that no string has
   V!0 := -1
   WRITEF("%N %N ", PACKSTRING(V, S), S%0)
   FOR I = 1 TO 256 DO V!I := 'X'
   V!0 := 300
   WRITEF("%N %N*N", PACKSTRING(V, S), S%0)
   // onto one of the two
   COPYSTRING("AB", R); CONCAT(R, "CD", R); WRITEF("%S ", R)
   COPYSTRING("AB", R); CONCAT("CD", R, R); WRITEF("%S ", R)
   COPYSTRING("AB", R); CONCAT(R, R, R); WRITEF("%S*N", R)
   COPYSTRING(R, R); WRITEF("%S*N", R)
   CONCAT(S, S, R); WRITEF("%N %C*N", R%0, R%255)
$)
