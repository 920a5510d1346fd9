get "libhdr"

let power(x, n) = valof
$(  IF n = 0 RESULTIS 1
    test n rem 2 = 0
    then resultis power(x * x, n / 2)
    else resultis x * power(x, n - 1)
$)

let start() be
$(  writes("Powers of three*n")
    for i = 0 to 5 do
    $(  writed(i, 3)
        writed(power(3, i), 8)
        newline()
    $)
    writes("Powers of two*n")
    for i = 0 to 5 do
    $(  writed(i, 3)
        writes("    ")
        writen(power(2))
        newline()
    $)
$)
