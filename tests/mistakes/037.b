GET "LIBHDR"

LET START() BE
$( LET COUNT = VEC 255
   LET CH = ?
   FOR I = 0 TO 255 DO COUNT!I := 0
   $( CH := RDCH()
      COUNT!CH := COUNT!CH + 1
   $) REPEATUNTIL CH = ENDSTREAMCH
   // show them
   FOR I = 'a' TO 'z' DO
      UNLESS COUNT!I = 0 DO
      $( WRCH(I)
         WRITED(COUNT!I, 4)
         NEWLINE()
      $)
$)
