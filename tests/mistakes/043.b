get "libhdr"
static $( list = 0 $)

let push(x) be
$(  let cell = vec 1
    cell!0 := x
    cell!1 := list
    list := cell
$)

let sum() = valof
$(  let p, s = list, 0
    until p = 0 do
    $(  s := s + p!0
        p := p!1
    $)
    resultis s
$)

let start() be
$(  push(10)
    writes("one pushed*n")
    writen(sum())
    newline()
$)
