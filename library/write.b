// write.b: WRITES, WRITEN, WRITED and NEWLINE by the global WRCH, for a program that sets WRCH. They replace those of the kit, and
// all others of this library call them. For WRITEF in this way, join format.b too. It needs output.b.
GET "LIBHDR"
GLOBAL $( WRITEDEC:907 $)

LET WRITES(S) BE FOR I = 1 TO S%0 DO WRCH(S%I)

AND WRITEN(N) BE WRITEDEC(N, 0, '*S')

AND WRITED(N, W) BE WRITEDEC(N, W, '*S')

AND NEWLINE() BE WRCH('*N')
.
