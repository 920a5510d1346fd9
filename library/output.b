// output.b: numbers in other bases, and in a field. A width below 0 counts as 0, and one above 255 as 255.
GET "LIBHDR"
GLOBAL $( WRITEHEX:905; WRITEOCT:906; WRITEDEC:907; NEWPAGE:945; WRITEBIN:946; WRITEU:947; WRITET:948; WRITEZ:949; ABORT:959 $)

// WRITEHEX(N, D) writes the D lowest hexadecimal digits of N, with zeros before them.
LET WRITEHEX(N, D) BE DIGITS(N, D, 4)

// WRITEOCT(N, D) writes the D lowest octal digits of N, with zeros before them.
AND WRITEOCT(N, D) BE DIGITS(N, D, 3)

// WRITEBIN(N, D) writes the D lowest bits of N, with zeros before them.
AND WRITEBIN(N, D) BE DIGITS(N, D, 1)

// The D lowest digits of N, each of so many bits.
AND DIGITS(N, D, BITS) BE FOR I = LIMITED(D) - 1 TO 0 BY -1 DO
   WRCH("0123456789ABCDEF"%(((N >> BITS * I) & (1 << BITS) - 1) + 1))

AND LIMITED(D) = D < 0 -> 0, D > 255 -> 255, D

// WRITEDEC(N, W, FILLER) writes N in decimal in W places, with the byte FILLER before it: WRITEDEC(42, 5, '**') writes
// ***42. A minus stands before the filler if that is '0', and else after it.
AND WRITEDEC(N, W, FILLER) BE
$( LET V, K, REST = VEC 9, 0, N
   // the digits, the last first; of a number below 0 they are taken with their sign, since -N may be below 0 too
   $( V!K := ABS(REST REM 10)
      REST := REST / 10
      K := K + 1
   $) REPEATUNTIL REST = 0
   W := LIMITED(W)
   IF N < 0 DO W := W - 1
   IF N < 0 & FILLER = '0' DO WRCH('-')
   FOR I = K + 1 TO W DO WRCH(FILLER)
   IF N < 0 & FILLER ~= '0' DO WRCH('-')
   FOR I = K - 1 TO 0 BY -1 DO WRCH(V!I + '0')
$)

// WRITEZ(N, W) writes N in decimal in W places, with zeros before it.
AND WRITEZ(N, W) BE WRITEDEC(N, W, '0')

// WRITEU(N, W) writes N, as a word without sign, in decimal in W places, with blanks before it.
AND WRITEU(N, W) BE TEST N >= 0 DO WRITEDEC(N, W, '*S') OR
$( // half of N, without sign, has the quotient by 5
   LET Q = (N >> 1) / 5
   WRITEDEC(Q, LIMITED(W) - 1, '*S')
   WRCH(N - Q * 10 + '0')
$)

// WRITET(S, W) writes the string S, and blanks after it up to W places.
AND WRITET(S, W) BE
$( WRITES(S)
   FOR I = S%0 + 1 TO LIMITED(W) DO WRCH('*S')
$)

// NEWPAGE() writes a form feed.
AND NEWPAGE() BE WRCH('*P')

// ABORT(N) ends the run with N, after a line that says so.
AND ABORT(N) BE
$( WRITES("*N!! ABORT ")
   WRITEN(N)
   NEWLINE()
   STOP(N)
$)

AND ABS(N) = N < 0 -> -N, N
.
