// Football league table
GET "LIBHDR2"
GLOBAL $( NAME:110; PTS:111; GOALS:112 $)
MANIFEST $( TEAMS = 3 $)

LET PLAY(A, GA, B, GB) BE
$( GOALS!A := GOALS!A + GA
   GOALS!B := GOALS!B + GB
   TEST GA > GB THEN PTS!A := PTS!A + 2
   ELSE TEST GA < GB THEN PTS!B := PTS!B + 2
        ELSE PTS!A, PTS!B := PTS!A + 1, PTS!B + 1
$)

LET START() BE
$( LET A, B, C = VEC TEAMS, VEC TEAMS, VEC TEAMS
   LET WINNER = 1
   NAME, PTS, GOALS := A, B, C
   NAME!1, NAME!2, NAME!3 := "Leeds", "Derby", "Stoke"
   FOR I = 1 TO TEAMS DO PTS!I, GOALS!I := 0, 0
   PLAY(1, 2, 2, 2)
   PLAY(2, 3, 3, 0)
   PLAY(3, 1, 1, 0)
   FOR I = 1 TO TEAMS DO
   $( WRITEF("%S %I4 %I4*N", NAME!I, GOALS!I, PTS!I)
      IF PTS!I > PTS!WINNER DO WINNER := I
   $)
   WRITEF("The winner is %S with %S points*N", NAME!WINNER, PTS!WINNER)
$)
