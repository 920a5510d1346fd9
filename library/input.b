// input.b: a byte of the input that can be given back, and numbers.
GET "LIBHDR"
GLOBAL $( READCH:900; UNRDCH:901; READN:902; TERMINATOR:903; RESULT2:904; READNUMBER:908 $)
STATIC $( LAST = ENDSTREAMCH; AGAIN = FALSE; BEGUN = FALSE $)

// READCH() is the next byte of the input, or ENDSTREAMCH at its end, as RDCH() is; after UNRDCH() it is the same byte
// once more. A program that calls UNRDCH or READN reads all bytes by READCH. It may declare RDCH:900 and call it RDCH.
LET READCH() = VALOF
$( TEST AGAIN DO AGAIN := FALSE OR LAST, BEGUN := RDCH(), TRUE
   RESULTIS LAST
$)

// UNRDCH() lets the next READCH() give the last byte again. One byte can be given back. The result is FALSE if there is none.
AND UNRDCH() = VALOF
$( AGAIN := BEGUN
   RESULTIS BEGUN
$)

// READN() reads a number in decimal, with a sign or without, past blanks and ends of lines before it. The byte after it is
// TERMINATOR, and is not read: the next READCH() gives it. RESULT2 is 0 if there was a digit; if not, it is -1 and the result is 0.
// Numbers wrap at 32 bits.
AND READN() = VALOF
$( LET N = READNUMBER()
   RESULT2 := RESULT2 -> 0, -1
   UNRDCH()
   RESULTIS N
$)

// READNUMBER() is READN of the book of 1980: the byte after the number, TERMINATOR, is read. RESULT2 is TRUE if there was a digit; if
// not, the result is 0. A program may declare READN:908 and call it READN.
AND READNUMBER() = VALOF
$( LET N, NEGATIVE = 0, FALSE
   TERMINATOR := READCH() REPEATWHILE TERMINATOR = '*S' | TERMINATOR = '*T' | TERMINATOR = '*N' | TERMINATOR = '*C'
   IF TERMINATOR = '-' | TERMINATOR = '+' DO
   $( NEGATIVE := TERMINATOR = '-'
      TERMINATOR := READCH()
   $)
   RESULT2 := '0' <= TERMINATOR <= '9'
   WHILE '0' <= TERMINATOR <= '9' DO
   $( N := N * 10 + TERMINATOR - '0'
      TERMINATOR := READCH()
   $)
   RESULTIS NEGATIVE -> -N, N
$)
.
