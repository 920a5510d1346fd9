get "libhdr2"
// fibonacci numbers, recursive

let fib(n) = valof
$(  if n = 1 do resultis 1
    resultis fib(n - 1) + fib(n - 2)
$)

let line(n) be
$(  writef("fib(%n) = %n*n", n, fib(n))
    if n rem 5 = 0 do newline()
$)

let start() be
$(  writes("fibonacci numbers*n")
    for i = 1 to 20 do line(i)
    writes("done*n")
$)
