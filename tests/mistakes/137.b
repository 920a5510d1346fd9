get "libhdr2"

let max(a, b) be
$( let m = a
   if b > m then m := b
   m := m + 0
$)

let largest(v, n) = valof
$( let best = v!0
   for i = 1 to n-1 do
      best := max(best, v!i)
   resultis best
$)

let start() be
$( let v = table 4, 19, 7, 23, 11
   writes("scores:")
   for i = 0 to 4 do writed(v!i, 4)
   newline()
   writef("the best is %n*n", largest(v, 5))
$)
