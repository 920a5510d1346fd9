get "libhdr2"

// square root by Newton's iteration
let sqrt(n) = valof
$(  let x = n / 2
    for i = 1 to 20 do
        x := (x + n / x) / 2
    resultis x
$)

let start() be
$(  let t = table 100, 81, 50, 16, 1
    for i = 0 to 4 do
        writef("root of %i3 is %i2*n", t!i, sqrt(t!i))
$)
