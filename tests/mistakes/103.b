get "libhdr2"

// 5!! = 5*3*1 , 6!! = 6*4*2
let doublefact(n) = valof
$(  let p = 1
    until n = 0 do
    $(  p := p * n
        n := n - 2
    $)
    resultis p
$)

let start() be
$(  writef("6!! = %n*n", doublefact(6))
    writef("8!! = %n*n", doublefact(8))
    writef("5!! = %n*n", doublefact(5))
    writef("7!! = %n*n", doublefact(7))
$)
