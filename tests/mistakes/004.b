get "libhdr"

// number to string
let tostring(n) = valof
$(  let buf = vec 20
    let digits = vec 12
    let len, d = 0, 0
    if n < 0 do
    $(  len := 1
        buf%1 := '-'
        n := -n
    $)
    $(  digits!d := n rem 10 + '0'
        d := d + 1
        n := n / 10
    $) repeatuntil n = 0
    while d > 0 do
    $(  d := d - 1
        len := len + 1
        buf%len := digits!d
    $)
    buf%0 := len
    resultis buf
$)

let start() be
$(  let s = tostring(-1234)
    writes("value: ")
    writes(s)
    newline()
$)
