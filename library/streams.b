// streams.b: several inputs and outputs. The inputs are in the one input, as tools/pack puts them there, and tools/unpack takes the
// outputs apart. It needs input.b, characters.b, heap.b and write.b. A program with START declares START:940, and RDCH:900.
GET "LIBHDR"
GLOBAL
$( READCH:900; UNRDCH:901; RESULT2:904; COMPSTRING:912; GETVEC:921; WITHHEAP:924; PROGRAM:940
   FINDINPUT:950; FINDOUTPUT:951; SELECTINPUT:952; SELECTOUTPUT:953; INPUT:954; OUTPUT:955; ENDREAD:956; ENDWRITE:957; REWIND:958
$)

// The input is `=INPUT NAME LENGTH` and a line feed and so many bytes, for each named input, and then `=INPUT *` and a line feed and the
// bytes of the unnamed input; or just these, where it begins otherwise. In the output a byte 1 and a name and a line feed come before
// what is written to another output than the bytes before. A byte 3 after the 1 says that the output is opened, which does not
// select it; a byte 2 stands for a byte 1 of the output.
MANIFEST
$( // a stream: a number of its own, its name, its bytes in blocks, and how many; the place of the next one, and its block; the last
   // byte, and whether it is given again
   ID = 0; NAME = 1; FIRST = 2; LENGTH = 3; PLACE = 4; BLOCK = 5; LAST = 6; AGAIN = 7; NEXT = 8
   STREAM = 8
   BLOCKBYTES = 4000; BLOCKWORDS = 1000    // word 1000 of a block is the next one
   OPENED = 3; ITSELF = 2; MARK = 1
$)

STATIC
$( SYSTEMRDCH = 0; SYSTEMWRCH = 0
   CONSOLEIN = 0; CONSOLEOUT = 0; READING = 0; WRITING = 0
   PACKED = 0              // the named inputs
   LOADED = FALSE
   BEFORE = 0; BEFORECOUNT = 0; AFTER = 0; HASAFTER = FALSE    // bytes that were read to see whether the input is packed
   STREAMS = 1; WRITTEN = 1
$)

LET START() BE WITHHEAP(STREAMED)

AND STREAMED() BE
$( CONSOLEIN := TABLE 1, 0, 0, -1, 0, 0, -1, 0, 0
   CONSOLEOUT := TABLE 1, 0, 0, 0, 0, 0, 0, 0, 0
   NAME!CONSOLEOUT := "**"
   READING, WRITING := CONSOLEIN, CONSOLEOUT
   SYSTEMRDCH, SYSTEMWRCH := RDCH, WRCH
   RDCH, WRCH := READCH, PUTCH
   PROGRAM()
$)

// ---- input ----

// Reads the named inputs.
AND LOAD() BE UNLESS LOADED DO
$( LET HEAD, I = "=INPUT ", 1
   LOADED := TRUE
   $( LET C = SYSTEMRDCH()
      UNLESS C = HEAD%I DO
      $( BEFORE, BEFORECOUNT, AFTER, HASAFTER := 1, I - 1, C, TRUE
         RETURN
      $)
      I := I + 1
      IF I > HEAD%0 DO
      $( IF LOADONE() RETURN
         I := 1
      $)
   $) REPEAT
$)

// Reads one input after its first blank; TRUE if it is the unnamed one.
AND LOADONE() = VALOF
$( LET S, V, N, C = NEWSTREAM(), GETVEC(63), 0, SYSTEMRDCH()
   LET LAST.BLOCK = 0
   UNTIL C = '*S' | C = '*N' | C = ENDSTREAMCH | N = 255 DO
   $( N := N + 1
      V%N := C
      C := SYSTEMRDCH()
   $)
   V%0 := N
   UNLESS C = '*S' RESULTIS TRUE
   NAME!S, LENGTH!S := V, 0
   C := SYSTEMRDCH()
   WHILE '0' <= C <= '9' DO
   $( LENGTH!S := LENGTH!S * 10 + C - '0'
      C := SYSTEMRDCH()
   $)
   FOR I = 0 TO LENGTH!S - 1 DO
   $( IF I REM BLOCKBYTES = 0 DO
      $( LET B = GETVEC(BLOCKWORDS)
         IF B = 0 DO NOROOM()
         B!BLOCKWORDS := 0
         TEST I = 0 DO FIRST!S := B OR LAST.BLOCK!BLOCKWORDS := B
         LAST.BLOCK := B
      $)
      LAST.BLOCK%(I REM BLOCKBYTES) := SYSTEMRDCH()
   $)
   NEXT!S := PACKED
   PACKED := S
   RESULTIS FALSE
$)

AND NOROOM() BE
$( SYSTEMWRITES("no room for the inputs*N")
   STOP(20)
$)

AND SYSTEMWRITES(S) BE FOR I = 1 TO S%0 DO SYSTEMWRCH(S%I)

AND NEWSTREAM() = VALOF
$( LET S = GETVEC(STREAM)
   IF S = 0 DO NOROOM()
   STREAMS := STREAMS + 1
   FOR I = 0 TO STREAM DO S!I := 0
   ID!S := STREAMS
   RESULTIS S
$)

// FINDINPUT(S) opens the input of the name S, in letters of either case, and gives a stream; 0 where there is none. "**" and "SYSIN" are
// the unnamed one.
AND FINDINPUT(S) = VALOF
$( LET P, T = ?, ?
   IF COMPSTRING(S, "**") = 0 | COMPSTRING(S, "SYSIN") = 0 RESULTIS CONSOLEIN
   LOAD()
   P := PACKED
   UNTIL P = 0 DO
   $( IF COMPSTRING(NAME!P, S) = 0 DO
      $( T := NEWSTREAM()
         FOR I = NAME TO LENGTH DO T!I := P!I
         BLOCK!T, LAST!T, AGAIN!T := FIRST!T, ENDSTREAMCH, FALSE
         RESULTIS T
      $)
      P := NEXT!P
   $)
   RESULT2 := 205
   RESULTIS 0
$)

// SELECTINPUT(S) makes RDCH, UNRDCH and READN read from the stream S.
AND SELECTINPUT(S) BE READING := S

AND INPUT() = READING

// ENDREAD() closes the selected input, and selects the unnamed one.
AND ENDREAD() BE READING := CONSOLEIN

// REWIND() goes back to the first byte of the selected input, if it has a name.
AND REWIND() BE UNLESS READING = 0 DO PLACE!READING, BLOCK!READING, AGAIN!READING := 0, FIRST!READING, FALSE

// READCH() is the next byte of the selected input.
AND READCH() = VALOF
$( LET S = READING
   IF S = 0 RESULTIS ENDSTREAMCH
   TEST AGAIN!S DO AGAIN!S := FALSE OR LAST!S := NEXTBYTE(S)
   RESULTIS LAST!S
$)

AND NEXTBYTE(S) = VALOF
$( LET P, C = PLACE!S, ?
   IF ID!S = 1 RESULTIS CONSOLEBYTE()
   IF P = LENGTH!S RESULTIS ENDSTREAMCH
   IF P > 0 & P REM BLOCKBYTES = 0 DO BLOCK!S := (BLOCK!S)!BLOCKWORDS
   C := (BLOCK!S)%(P REM BLOCKBYTES)
   PLACE!S := P + 1
   RESULTIS C
$)

AND CONSOLEBYTE() = VALOF
$( LOAD()
   IF BEFORE <= BEFORECOUNT & BEFORE > 0 DO
   $( BEFORE := BEFORE + 1
      RESULTIS "=INPUT "%(BEFORE - 1)
   $)
   IF HASAFTER DO
   $( HASAFTER := FALSE
      RESULTIS AFTER
   $)
   RESULTIS SYSTEMRDCH()
$)

// UNRDCH() lets the next READCH() of the selected input give its last byte again.
AND UNRDCH() = VALOF
$( IF READING = 0 RESULTIS FALSE
   AGAIN!READING := TRUE
   RESULTIS TRUE
$)

// ---- output ----

// FINDOUTPUT(S) opens the output of the name S, empty, and gives a stream. "**" and "SYSPRINT" are the unnamed one.
AND FINDOUTPUT(S) = VALOF
$( LET T, V = ?, ?
   IF COMPSTRING(S, "**") = 0 | COMPSTRING(S, "SYSPRINT") = 0 RESULTIS CONSOLEOUT
   T, V := NEWSTREAM(), GETVEC(63)
   IF V = 0 DO NOROOM()
   FOR I = 0 TO S%0 DO V%I := S%I
   NAME!T := V
   SYSTEMWRCH(MARK)
   SYSTEMWRCH(OPENED)
   SYSTEMWRITES(V)
   SYSTEMWRCH('*N')
   RESULTIS T
$)

// SELECTOUTPUT(S) makes all routines that write write to the stream S.
AND SELECTOUTPUT(S) BE WRITING := S

AND OUTPUT() = WRITING

// ENDWRITE() closes the selected output, and selects the unnamed one.
AND ENDWRITE() BE WRITING := CONSOLEOUT

AND PUTCH(C) BE UNLESS WRITING = 0 DO
$( UNLESS ID!WRITING = WRITTEN DO
   $( WRITTEN := ID!WRITING
      SYSTEMWRCH(MARK)
      SYSTEMWRITES(NAME!WRITING)
      SYSTEMWRCH('*N')
   $)
   SYSTEMWRCH(C)
   IF (C & #XFF) = MARK DO SYSTEMWRCH(ITSELF)
$)
.
