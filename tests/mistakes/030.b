GET "LIBHDR"

LET JOIN(T, A, B) BE
$( LET N = GETBYTE(A, 0)
   PUTBYTE(T, 0, N + GETBYTE(B, 0))
   FOR I = 1 TO N DO PUTBYTE(T, I, GETBYTE(A, I))
   FOR I = 1 TO GETBYTE(B, 0) DO
      PUTBYTE(T, N + I, GETBYTE(B, I))
$)

LET START() BE
$( LET T = VEC 3
   JOIN(T, "Cam", "bridge")
   WRITES(T)
   NEWLINE()
   JOIN(T, "Cambridge ", "Massachusetts")
   WRITES(T)
   NEWLINE()
$)
