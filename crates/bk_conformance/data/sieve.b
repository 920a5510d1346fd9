GET "LIBHDR2"
MANIFEST $( LAST = 50 $)

LET START() BE
$( LET V = VEC LAST
   FOR I = 0 TO LAST DO V!I := TRUE
   FOR I = 2 TO LAST DO
      IF V!I DO
      $( LET K = I * I
         WRITEF("%N ", I)
         WHILE K <= LAST DO
         $( V!K := FALSE
            K := K + I
         $)
      $)
   NEWLINE()
   $( LET T = TABLE 31, 28, 31, 30
      WRITEF("%N %N*N", T!1, !(T + 3))
   $)
$)
