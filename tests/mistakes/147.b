get "libhdr2"

let value(c) = valof
switchon c into
$( case 'I': resultis 1
   case 'V': resultis 5
   case 'X': resultis 10
   case 'L': resultis 50
   case 'C': resultis 100
   case 'D': resultis 500
   case 'M': resultis 1000
$)

let roman(s) = valof
$( let sum, last = 0, 0
   for i = getbyte(s, 0) to 1 by -1 do
   $( let v = value(getbyte(s, i))
      test v < last
      then sum := sum - v
      or sum := sum + v
      last := v
   $)
   resultis sum
$)

let start() be
$( writef("%s = %n*n", "XIV", roman("XIV"))
   writef("%s = %n*n", "MCMLXXX", roman("MCMLXXX"))
   writef("%s = %n*n", "MZII", roman("MZII"))
$)
