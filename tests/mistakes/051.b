GET "LIBHDR"

// day of the week in the years 1901 to 1999, 0 is Sunday
LET WEEKDAY(NAME, DAY, M, Y) BE
$( LET T = TABLE 0, 3, 3, 6, 1, 4, 6, 2, 5, 0, 3, 5
   LET D = (Y + Y/4 + T!(M - 1) + DAY) REM 7 + 1
   WRITES(NAME!D)
   NEWLINE()
$)

LET START() BE
$( LET NAME = VEC 6
   NAME!0 := "Sunday"
   NAME!1 := "Monday"
   NAME!2 := "Tuesday"
   NAME!3 := "Wednesday"
   NAME!4 := "Thursday"
   NAME!5 := "Friday"
   NAME!6 := "Saturday"
   WEEKDAY(NAME, 20, 7, 69)
   WEEKDAY(NAME, 9, 11, 89)
   WEEKDAY(NAME, 1, 9, 45)
$)
