get "libhdr2"
manifest $( n = 7 $)
global $( queue:100; head:101; tail:102; depth:103 $)

let put(x, d) be
    if depth!x < 0 do
    $(  depth!x := d
        queue!tail := x
        tail := tail + 1
    $)

// breadth first over the tree of i, 2i, 2i+1
let search(s) be
$(  head, tail := 0, 0
    put(s, 0)
    while head <= tail do
    $(  let x = queue!head
        head := head + 1
        if 2 * x <= n do put(2 * x, depth!x + 1)
        if 2 * x + 1 <= n do put(2 * x + 1, depth!x + 1)
    $)
$)

let start() be
$(  let q, d = vec 20, vec n
    queue, depth := q, d
    for i = 0 to n do d!i := -1
    search(1)
    for i = 1 to n do writef("%n:%n*n", i, d!i)
$)
