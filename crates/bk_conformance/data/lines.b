GET "LIBHDR2"
LET START() BE
$( LET SUM = 0
   FOR I = 1 TO 10 DO
      IF I REM 3 = 0 DO
         SUM := SUM + I
   IF SUM > 1000 RETURN
   WRITEF("%N", SUM); WRITEF(" and %N*N",
                             SUM * SUM)
$)
