get "libhdr2"

// strlen and friends
let strlen(s) = valof
$(  let n = 1
    while s%n ~= 0 do n := n + 1
    resultis n - 1
$)

let underline(s) be
$(  writes(s)
    newline()
    for i = 1 to strlen(s) do wrch('-')
    newline()
$)

let start() be
$(  underline("Report")
    underline("one two")
    writef("done*n")
$)
