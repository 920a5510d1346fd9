// The towers of Hanoi, for three discs.
GET "LIBHDR2"

LET MOVE(N, PEG, GOAL, SPARE) BE
   UNLESS N = 0 DO
   $( MOVE(N - 1, PEG, SPARE, GOAL)
      WRITEF("DISC %N FROM %C TO %C*N", N, PEG, GOAL)
      MOVE(N - 1, SPARE, GOAL, PEG)
   $)

LET START() BE MOVE(3, 'A', 'C', 'B')
