get "libhdr2"

// least i with v!i >= x
let lowerbound(v, n, x) = valof
$(  let lo, hi = 0, n
    until lo = hi do
    $(  let mid = (lo + hi) / 2
        test v!mid < x then lo := mid else hi := mid
    $)
    resultis lo
$)

let start() be
$(  let squares = vec 15
    for i = 0 to 15 do squares!i := i * i
    writef("0 would go to %n*n", lowerbound(squares, 16, 0))
    writef("30 would go to %n*n", lowerbound(squares, 16, 30))
    writef("225 would go to %n*n", lowerbound(squares, 16, 225))
$)
