GET "LIBHDR2"

// FORTRAN style
LET START() BE
$( LET N, K, PRIME = 2, ?, ?
L5:  K := 2
     PRIME := TRUE
L10: IF K * K > N GOTO L20
     IF N REM K = 0 DO $( PRIME := FALSE; GOTO L10 $)
     K := K + 1
     GOTO L10
L20: IF PRIME DO WRITEF("%I4", N)
     N := N + 1
     IF N <= 40 GOTO L5
     NEWLINE()
$)
