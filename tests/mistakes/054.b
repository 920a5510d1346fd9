get "libhdr2"
manifest $( size = 16; empty = -1 $)
global $( key:100; val:101 $)

// open addressing: index of k, or of the free slot for it
let slot(k) = valof
$(  let h = k * 7 rem size
    $(  if key!h = k resultis h
        if key!h = empty resultis h
        h := (h + 1) rem size
    $) repeat
$)

let put(k, v) be
$(  let h = slot(k)
    key!h, val!h := k, v
$)

let get.it(k) = valof
$(  let h = slot(k)
    resultis key!h = empty -> 0, val!h
$)

let start() be
$(  let a, b = vec size, vec size
    key, val := a, b
    for i = 0 to size - 1 by 2 do key!i := empty
    put(2, 200)
    put(4, 400)
    put(34, 3400)
    put(10, 1000)
    writef("%n %n*n", get.it(4), get.it(5))
$)
