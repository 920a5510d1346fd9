GET "LIBHDR2"

LET SWAP(A, B) BE
$( LET T = !A
   !A := !B
   !B := T
$)

LET ORDER(V, N) BE
   FOR I = 0 TO N-2 DO
      FOR J = I+1 TO N-1 DO
         IF V!I > V!J DO SWAP(V!I, V!J)

LET START() BE
$( LET V = TABLE 5, 3, 9, 1
   ORDER(V, 4)
   FOR I = 0 TO 3 DO WRITEF("%N ", V!I)
   NEWLINE()
$)
