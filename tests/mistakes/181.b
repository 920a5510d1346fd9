get "libhdr2"

let fib(n) = valof
$( if n = 0 resultis 0
   resultis fib(n-1) + fib(n-2)
$)

let gap(n) be for i = 1 to n do wrch('*s')

let start() be
$( writes("the rabbits of Fibonacci*n")
   for n = 0 to 12 do
   $( gap(n)
      writef("%n*n", fib(n))
   $)
$)
