get "libhdr2"

// number of steps of the 3n+1 sequence
let hailstone(n) = valof
$(  if n = 0 resultis 0
    resultis 1 + hailstone((n & 1) = 0 -> n / 2, 3 * n + 1)
$)

let start() be
$(  writes("  n steps*n")
    for i = 0 to 10 do
    $(  writed(i, 3)
        writed(hailstone(i), 6)
        newline()
    $)
$)
