get "libhdr"

let append(name, ch) be
$(  let n = name%0 + 1
    name%0 := n
    name%n := ch
$)

let appends(name, s) be
    for i = 1 to s%0 do append(name, s%i)

let start() be
$(  let line = "go"
    writes(line)
    newline()
    append(line, '!')
    writes(line)
    newline()
    appends(line, " north")
    writes(line)
    newline()
$)
