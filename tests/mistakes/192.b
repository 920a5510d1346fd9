// next prime after each of some numbers
get "libhdr2"

let isprime(n) = valof
$(  let d = 2
    if n < 2 do resultis false
    while d * d <= n do
    $(  if n rem d = 0 do resultis false
        d := d + 1
    $)
    resultis true
$)

let nextprime(n) = valof
$(  n := n + 1
    until isprime(n) = 1 do
        n := n + 1
    resultis n
$)

let start() be
$(  let start.values = table 10, 20, 90, 1000
    for i = 0 to 3 do
        writef("after %n comes %n*n", start.values!i, nextprime(start.values!i))
$)
