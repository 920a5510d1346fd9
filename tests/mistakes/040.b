get "libhdr2"

let largest(v, n) = valof
$(  let best, where = ?, 0
    for i = 0 to n - 1 do
        if v!i > best do
        $(  best := v!i
            where := i
        $)
    resultis where
$)

let start() be
$(  let rain = table 52, 38, 47, 60, 71, 44, 39, 58, 66, 70, 49, 55
    let m = largest(rain, 12)
    writef("wettest month: %n with %n mm*n", m + 1, rain!m)
$)
