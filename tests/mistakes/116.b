get "libhdr"
manifest $( height = 20 $)

let minimum(v, n) = valof
$(  let m = v!0
    for i = 1 to n - 1 if v!i < m do m := v!i
    resultis m
$)

let maximum(v, n) = valof
$(  let m = v!0
    for i = 1 to n - 1 if v!i > m do m := v!i
    resultis m
$)

let chart(v, n) be
$(  let lo, hi = minimum(v, n), maximum(v, n)
    for i = 0 to n - 1 do
    $(  let h = (v!i - lo) * height / (hi - lo)
        for k = 0 to h do wrch('#')
        newline()
    $)
$)

let start() be
$(  let u = table 2, 9, 5, 7, 1, 6
    let v = table 4, 4, 4, 4, 4, 4
    chart(u, 6)
    writes("------*n")
    chart(v, 6)
$)
