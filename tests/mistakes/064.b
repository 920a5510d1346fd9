get "libhdr2"

// number of binary digits
let bits(x) = valof
$(  let n = 0
    while x ~= 0 do
    $(  n := n + 1
        x := x / 2 - 1
    $)
    resultis n
$)

let start() be
$(  for i = 0 to 4 do
    $(  let n = i * i + 2
        writef("%i4 has %n binary digits*n", n, bits(n))
    $)
$)
