// Strings, byte by byte: each line of the input is kept as a string, and written backwards in capitals.
GET "LIBHDR"
GLOBAL $( GETLINE:100 $)

LET CAPITAL(C) = 'a' <= C <= 'z' -> C - 'a' + 'A', C

// puts the next line into the string S; false at the end of the input
LET GETLINE(S) = VALOF
$( LET N, C = 0, RDCH()
   IF C = ENDSTREAMCH RESULTIS FALSE
   UNTIL C = '*N' | C = ENDSTREAMCH DO
   $( IF N < 255 DO
      $( N := N + 1
         S%N := C
      $)
      C := RDCH()
   $)
   S%0 := N
   RESULTIS TRUE
$)

LET START() BE
$( LET LINE = VEC 63
   WHILE GETLINE(LINE) DO
   $( FOR I = LINE%0 TO 1 BY -1 DO WRCH(CAPITAL(LINE%I))
      NEWLINE()
   $)
$)
