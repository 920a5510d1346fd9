get "libhdr2"

// leave the smaller one in p, the larger one in q
let order(p, q) be
$(  let t = !p
    if t > !q do
    $(  !p := !q
        !q := t
    $)
$)

let start() be
$(  let a, b, c = 30, 20, 10
    order(@a, @b)
    writef("%n %n %n*n", a, b, c)
    order(b, c)
    writef("%n %n %n*n", a, b, c)
    order(@a, @b)
    writef("%n %n %n*n", a, b, c)
$)
