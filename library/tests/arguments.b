GET "LIBHDR2"
GLOBAL $( RDCH:900; SPLIT:941; RDITEM:942; RDARGS:943; FINDARG:944; TESTFLAGS:939 $)
LET SHOW(KEYS, V, K) BE
$( LET END, N = RDARGS(KEYS, V, K), 1
   TEST END = 0 DO WRITES("BAD*N") OR
   $( FOR I = 1 TO KEYS%0 IF KEYS%I = ',' DO N := N + 1
      FOR I = 0 TO N - 1 DO TEST V!I = 0 DO WRITES("-;") OR TEST I = 2 DO WRITEF("%N;", V!I) OR WRITEF("%S;", V!I)
      WRITEF(" %N*N", END - V)
   $)
$)
LET START() BE
$( LET V, P, N = VEC 50, VEC 63, 1
   LET KEYS = "FROM/A,TO/K,N/S,OPT=WITH/K"
   FOR I = 1 TO 9 DO SHOW(KEYS, V, 50)
   // too little room for the strings, for the keys, and for anything
   SHOW(KEYS, V, 5); SHOW(KEYS, V, 3); SHOW(KEYS, V, -1)
   WRITEF("%N*N", TESTFLAGS(1))
   WRITEF("%N %N %N %N %N*N", FINDARG(KEYS, "from"), FINDARG(KEYS, "OPT"), FINDARG(KEYS, "with"), FINDARG(KEYS, "A"), FINDARG("", ""))
   // items: two, a `;`, quotes, one that is too long, quotes without an end, the end
   FOR I = 1 TO 9 DO
   $( LET R = RDITEM(V, I = 7 -> 0, 50)
      WRITEF("%N(%S) ", R, (R = 1 | R = 2 -> V, ""))
      UNLESS R > 0 DO UNTIL RDCH() <= ';' DO LOOP
   $)
   WRITEF("%N %N*N", RDITEM(V, -1), RDITEM(V, 0))
   $( N := SPLIT(P, ':', "A:BC::D", N)
      WRITEF("%S %N, ", P, N)
   $) REPEATUNTIL N = 0
   WRITEF("%N %S %N %S*N", SPLIT(P, ':', "AB", -5), P, SPLIT(P, ':', "", 1), P)
$)
