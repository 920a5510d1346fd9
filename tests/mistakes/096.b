GET "LIBHDR"

// Celsius and Fahrenheit
LET FAHR(C) = C * 9 / 5 + 32

LET START() BE
$( LET C = 0
   WRITES("   C   F*N")
   $( WRITED(C, 4)
      WRITED(FAHR(C), 4)
      NEWLINE()
      C := C + 8
   $) REPEATUNTIL C = 100
   WRITES("boiling*N")
$)
