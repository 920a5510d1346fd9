GET "LIBHDR"

LET GRADE(M) = VALOF
$( IF M >= 80 RESULTIS 'A'
   IF M >= 70 RESULTIS 'B'
   IF M >= 60 RESULTIS 'C'
   IF M >= 50 RESULTIS 'D'
$)

LET START() BE
$( LET MARKS = TABLE 91, 77, 50, 68, 42, 83
   FOR I = 0 TO 5 DO
   $( WRITES("student ")
      WRITED(I + 1, 3)
      WRITES("   ")
      WRITED(MARKS!I, 4)
      WRITES("   ")
      WRCH(GRADE(MARKS!I))
      NEWLINE()
   $)
$)
