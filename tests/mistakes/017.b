get "libhdr2"
manifest $( entries = 4 $)
global $( name:120; phone:121 $)

let enter(i, n, p) be
$(  name!i := n
    phone!i := p
$)

let lookup(key) = valof
$(  for i = 0 to entries - 1 do
        if name!i = key resultis i
    resultis -1
$)

let ask(key) be
$(  let i = lookup(key)
    test i < 0
    then writef("%s is not in the book*n", key)
    else writef("%s: %n*n", key, phone!i)
$)

let start() be
$(  let n, p = vec entries, vec entries
    name := n
    phone := p
    enter(0, "martin", 4711)
    enter(1, "colin", 4712)
    enter(2, "dennis", 4713)
    enter(3, "ken", 4714)
    ask("dennis")
    ask("brian")
$)
