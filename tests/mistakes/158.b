GET "LIBHDR2"

LET GRADE(MARK) = MARK >= 70 -> 'A',
                  MARK >= 60 -> 'B',
                  MARK >= 40 -> 'C', 'F'

LET LINE(NAME, MARK) BE
$( LET G = GRADE(MARK)
   WRITEF("%S: %I3  GRADE %S*N", NAME, MARK, G)
$)

LET START() BE
$( WRITES("EXAMINATION RESULTS*N")
   LINE("ADAMS", 71)
   LINE("BAKER", 55)
   LINE("CLARK", 12)
$)
