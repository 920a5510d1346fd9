get "libhdr2"
global $( days:200 $)

let length(m) = days!m

let year(y) be
$( let total = 0
   writef("year %n*n", y)
   for m = 1 to 12 do
   $( let d = length(m)
      total := total + d
      writef("month %i2: day %i3*n", m, total)
   $)
$)

let start() be
$( days := table 31, 28, 31, 30, 31, 30, 31, 31, 30, 31, 30, 31
   year(1979)
$)
