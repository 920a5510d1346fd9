get "libhdr2"

let sum(v, n) = valof
$( let total = 0
   for i = 1 to n do
      total := total + v
   resultis total
$)

let start() be
$( let prices = vec 5
   let quantities = vec 5
   for i = 1 to 5 do
   $( prices!i := 10 * i + 3
      quantities!i := 6 - i
   $)
   for i = 1 to 5 do prices!i := prices!i * quantities!i
   writef("the bill is %n pence*n", sum(prices, 5))
$)
