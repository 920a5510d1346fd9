get "libhdr2"

// lists of (key, next)
let member(q, list) = valof
$(  let p = list
    until p = 0 do
    $(  if p = q resultis true
        p := p!1
    $)
    resultis false
$)

let cell(c, k, l) = valof
$(  c!0, c!1 := k, l
    resultis c
$)

let start() be
$(  let a, b, c, d = vec 1, vec 1, vec 1, vec 1
    let l = cell(a, 3, cell(b, 5, cell(c, 7, 0)))
    writef("%s*n", member(a, l) -> "yes", "no")
    writef("%s*n", member(cell(d, 5, 0), l) -> "yes", "no")
$)
