GET "LIBHDR2"
GLOBAL $( INITHEAP:920; GETVEC:921; FREEVEC:922 $)
LET START() BE
$( // 102 words: two of the heap, and blocks of K + 2 words
   LET H = VEC 101
   LET A, B, C, D = ?, ?, ?, ?
   INITHEAP(H, 101)
   A := GETVEC(9)
   B := GETVEC(18)
   C := GETVEC(50)
   WRITEF("%N %N %N*N", A - H, B - H, C - H)
   WRITEF("%N*N", GETVEC(30))
   FOR I = 0 TO 9 DO A!I := I
   FOR I = 0 TO 18 DO B!I := 100 + I
   FOR I = 0 TO 50 DO C!I := 200 + I
   WRITEF("%N %N %N %N*N", A!9, B!0, B!18, C!50)
   // what is given back is given again, and free blocks side by side are one
   FREEVEC(B)
   FREEVEC(A)
   FREEVEC(0)
   D := GETVEC(29)
   WRITEF("%N %N*N", D - H, C!0)
   FREEVEC(D)
   FREEVEC(C)
   D := GETVEC(98)
   WRITEF("%N %N*N", D - H, GETVEC(0))
   D!98 := 7
   FREEVEC(D)
   // a vector that is given back twice
   FREEVEC(D)
   D := GETVEC(99)
   WRITEF("%N*N", D)
   // sizes that no heap has
   WRITEF("%N %N %N %N*N", GETVEC(-1), GETVEC(-2), GETVEC(#X7FFFFFFF), GETVEC(#X80000000))
   WRITEF("%N*N", GETVEC(98) - H)
   // heaps without room
   INITHEAP(H, 2)
   WRITEF("%N ", GETVEC(0))
   INITHEAP(H, -1)
   WRITEF("%N*N", GETVEC(0))
$)
