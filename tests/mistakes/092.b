get "libhdr"

// x and y lie side by side
let pair(x, y) = valof
$(  if x > y do
    $(  let t = x
        x := y
        y := t
    $)
    resultis @x
$)

let show(p) be
$(  wrch('(')
    writen(p!0)
    wrch(',')
    writen(p!1)
    writes(")*n")
$)

let start() be
$(  let p = pair(8, 3)
    show(p)
    show(pair(1, 2))
$)
