get "libhdr2"

// the functions need each other
let even(n) = n = 0 -> true, odd(n - 1) and odd(n) = n = 1 -> true, even(n - 1)

let show(n) be
$(  writed(n, 3)
    writes(odd(n) -> " odd*n", " even*n")
$)

let start() be
$(  writes("Odd or even*n")
    show(1)
    show(3)
    show(5)
    writes("and the rest*n")
    show(0)
$)
