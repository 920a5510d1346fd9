get "libhdr"
manifest $( digits = 10 $)

// numbers with their lowest digit first
let multiply(a, b, c) be
$(  for i = 0 to digits - 1 do c!i := 0
    for i = 0 to digits - 1 do
    $(  let carry = 0
        for j = 0 to digits - 1 do
        $(  let t = c!(i + j) + carry + a!i * b!j
            c!(i + j) := t rem 10
            carry := t / 10
        $)
        c!(i + digits) := carry
    $)
$)

let write.big(v, n) be
$(  for i = n - 1 to 0 by -1 do writen(v!i)
    newline()
$)

let start() be
$(  let a, b = vec digits - 1, vec digits - 1
    let c = vec 2 * digits - 2
    for i = 0 to digits - 1 do a!i, b!i := 9 - i rem 3, 8
    write.big(a, digits)
    write.big(b, digits)
    multiply(a, b, c)
    write.big(c, 2 * digits)
$)
