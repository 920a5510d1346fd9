get "libhdr2"
manifest $( things = 3 $)
global $( name:100; where:101; carried:102 $)

let same(a, b) = valof
$(  for i = 0 to a%0 unless a%i = b%i resultis false
    resultis true
$)

let find(s) = valof
$(  for i = 0 to things - 1 do
        if (name!i)%0 = s%0 & same(name!i, s) resultis i
    resultis -1
$)

let take(k) be
$(  let i = find("sword")
    writef("You try to take the sword from room %n.*n", k)
    carried!k := where!i
$)

let start() be
$(  let n, w, c = vec things, vec things, vec things
    name, where, carried := n, w, c
    name!0, name!1, name!2 := "lamp", "rope", "coin"
    for i = 0 to things - 1 do where!i, carried!i := i, false
    writef("The %s is at %n.*n", "rope", where!(find("rope")))
    take(1)
    writes("Taken.*n")
$)
