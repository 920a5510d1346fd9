// Ways out: of loops, of a VALOF, of a procedure from within an expression.
GET "LIBHDR2"

// the place of X among the N words of V, or -1
LET PLACE(X, V, N) = VALOF
$( FOR I = 0 TO N - 1 DO IF V!I = X RESULTIS I
   RESULTIS -1
$)

// the first pair of V and W whose sum is N; RETURN leaves the procedure from within the VALOF
LET PAIR(V, W, N) BE
$( FOR I = 0 TO 3 DO
   $( LET J = VALOF
      $( FOR K = 0 TO 3 DO
         $( IF V!I > N BREAK
            IF V!I + W!K NE N LOOP
            WRITEF("%N and %N make %N*N", V!I, W!K, N)
            RETURN
         $)
         RESULTIS -1
      $)
   $)
   WRITEF("no two make %N*N", N)
$)

LET START() BE
$( LET V = TABLE 2, 3, 5, 7
   LET W = TABLE 1, 4, 9, 16
   LET TRIES = 0
   WRITEF("%N %N*N", PLACE(5, V, 4), PLACE(6, V, 4))
   PAIR(V, W, 14); PAIR(V, W, 13)
AGAIN:
   TRIES := TRIES + 1
   WRITEF("try %N: %N*N", TRIES, VALOF $( IF TRIES < 3 GOTO AGAIN; RESULTIS TRIES * TRIES $))
$)
