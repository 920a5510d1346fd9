// Print queue simulation with a ring buffer
GET "LIBHDR2"
MANIFEST $( SIZE = 8 $)
STATIC $( HEAD = 0; TAIL = 0; WAITING = 0 $)
GLOBAL $( RING:130 $)

LET NEXTPOS(P) = P = SIZE -> 0, P + 1

LET ENQUEUE(JOB) BE
$( IF WAITING = SIZE DO
   $( WRITEF("job %N refused*N", JOB)
      RETURN
   $)
   RING!TAIL := JOB
   TAIL := NEXTPOS(TAIL)
   WAITING := WAITING + 1
$)

LET DEQUEUE() = VALOF
$( LET JOB = RING!HEAD
   HEAD := NEXTPOS(HEAD)
   WAITING := WAITING - 1
   RESULTIS JOB
$)

LET START() BE
$( LET V, JOB = VEC 7, 1
   RING := V
   FOR MINUTE = 1 TO 20 DO
   $( ENQUEUE(JOB)
      JOB := JOB + 1
      IF MINUTE REM 2 = 0 & WAITING > 0 DO
         WRITEF("minute %N: printed job %N*N", MINUTE, DEQUEUE())
   $)
   WRITEF("%N jobs still wait*N", WAITING)
$)
