// who is who - a small oracle
GET "LIBHDR2"
MANIFEST $( PEOPLE = 3 $)
GLOBAL $( NAMES:100; JOBS:101 $)

LET LOOKUP(NAME) = VALOF
$( FOR I = 0 TO PEOPLE - 1 DO
      IF NAMES!I = NAME DO RESULTIS JOBS!I
   RESULTIS "unknown"
$)

LET ASK(NAME) BE
   WRITEF("%S: %S*N", NAME, LOOKUP(NAME))

LET START() BE
$( LET N, J = VEC PEOPLE, VEC PEOPLE
   NAMES, JOBS := N, J
   NAMES!0, JOBS!0 := "Strachey", "designer of CPL"
   NAMES!1, JOBS!1 := "Richards", "designer of BCPL"
   NAMES!2, JOBS!2 := "Thompson", "designer of B"
   ASK("Richards")
   ASK("Thompson")
   ASK("Ritchie")
$)
