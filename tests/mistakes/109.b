get "libhdr2"
manifest $( off = 0; on = 1; blinking = 2; broken = 3 $)
global $( current:100; state:101 $)

let sleep(i) be current := i rem 2 = 0 -> on, off
let shine(i) be $( wrch('O'); current := blinking $)
let blink(i) be
$(  wrch('o')
    current := i > 6 -> broken, off
$)

let start() be
$(  let table.v = vec 3
    state, current := table.v, off
    state!off := sleep
    state!on := shine
    state!blinking := blink
    for i = 0 to 30 do
    $(  let handler = state!current
        handler(i)
    $)
    newline()
$)
