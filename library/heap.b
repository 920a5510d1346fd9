// heap.b: vectors that are taken and given back while the program runs.
GLOBAL $( START:1; INITHEAP:920; GETVEC:921; FREEVEC:922; WITHHEAP:924; PROGRAM:940 $)
STATIC $( HEAP = 0 $)

// The heap is a list of vectors. Word 0 of a vector is the next one of the list, or 0; word 1 is the number of its words; its blocks
// are from word 2 on, one after another. Word 0 of a block is the number of its words, itself counted: above 0 if the block is free,
// and below 0 if it is taken.
MANIFEST $( NEXT = 0; TOP = 1; BLOCKS = 2 $)

// A program that has no heap of its own declares START:940: then START is this one, which makes a heap of four vectors of 32,768 words,
// and calls the program's.
LET START() BE WITHHEAP(PROGRAM)

// WITHHEAP(F) calls F with such a heap.
AND WITHHEAP(F) BE
$( HEAP := 0
   GROW(4, F)
$)

AND GROW(N, F) BE
$( LET V = VEC 32767
   ADD(V, 32767)
   TEST N = 1 DO F() OR GROW(N - 1, F)
$)

// INITHEAP(V, K) makes a heap of the words V!0 to V!K, at least four. START calls it once, with a vector of its own.
AND INITHEAP(V, K) BE
$( HEAP := 0
   IF K > BLOCKS DO ADD(V, K)
$)

AND ADD(V, K) BE
$( NEXT!V, TOP!V, BLOCKS!V := HEAP, K + 1, K + 1 - BLOCKS
   HEAP := V
$)

// GETVEC(K) gives a vector of the words 0 to K, or 0 if the heap has no room for it or K is below 0. Its words are not set.
AND GETVEC(K) = VALOF
$( LET V, SIZE = HEAP, K + 2
   UNLESS 0 <= K < #X1000000 RESULTIS 0
   UNTIL V = 0 DO
   $( LET I = ROOM(V, SIZE)
      UNLESS I = 0 RESULTIS V + I + 1
      V := NEXT!V
   $)
   RESULTIS 0
$)

// The place of a block of this size in the vector V, now taken, or 0.
AND ROOM(V, SIZE) = VALOF
$( LET I = BLOCKS
   WHILE I < TOP!V DO
   $( LET N = V!I
      TEST N < 0 DO I := I - N
      OR
      $( // free blocks that are side by side become one
         WHILE I + N < TOP!V & V!(I + N) > 0 DO N := N + V!(I + N)
         V!I := N
         IF N >= SIZE DO
         $( IF N > SIZE DO V!(I + SIZE) := N - SIZE
            V!I := -SIZE
            RESULTIS I
         $)
         I := I + N
      $)
   $)
   RESULTIS 0
$)

// FREEVEC(V) gives a vector of GETVEC back. FREEVEC(0) does nothing.
AND FREEVEC(V) BE UNLESS V = 0 DO IF V!(-1) < 0 DO V!(-1) := -(V!(-1))
.
