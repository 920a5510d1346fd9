get "libhdr"

// read a name of n letters
let readname(name, n) be
$(  for i = 1 to n do
        name!i := rdch()
    name%0 := n
$)

let start() be
$(  let name = vec 10
    readname(name, 5)
    writes("Hello, ")
    writes(name)
    newline()
$)
