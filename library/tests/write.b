// WRITES, WRITEN, WRITED, NEWLINE and WRITEF by a WRCH of the program's own, which can be another one at any time.
GET "LIBHDR2"
STATIC $( BUFFER = 0; COUNT = 0 $)
LET KEEP(C) BE
$( COUNT := COUNT + 1
   BUFFER!COUNT := C
$)
LET START() BE
$( LET V, OLD = VEC 100, WRCH
   BUFFER := V
   WRCH := KEEP
   WRITES("AB"); WRITEN(-12); WRITED(3, 4); NEWLINE(); WRITES("")
   WRITEF("%S%N%C%I3%%", "CD", 45, '!', 6)
   WRCH := OLD
   WRITEF("%N:", COUNT)
   FOR I = COUNT TO 1 BY -1 DO WRCH(BUFFER!I)
   WRITED(#X80000000, 12); WRITED(5, -1); WRITED(5, 0); NEWLINE()
   WRITED(1, 1000); NEWLINE()
$)
