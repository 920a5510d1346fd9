get "libhdr"

let copystring(s, t) be
    for i = 0 to s%0 do t%i := s%i

let truncate(s, n) be
    if s%0 > n do s%0 := n

let show(label, s) be
$(  writes(label)
    writes(": ")
    writes(s)
    newline()
$)

let start() be
$(  let line = vec 20
    let other = vec 20
    copystring("the hunting of the snark", line)
    show("line", line)
    truncate(line, 11)
    copystring(line, other)
    show("other", other)
    truncate(7, line)
    show("line", line)
$)
