// binary tree, with my own malloc
get "libhdr2"
manifest $( key = 0; left = 1; right = 2; nodesize = 3; heapwords = 200 $)
global $( heap:100; used:101 $)

let alloc(n) = valof
$(  let words = (n + bytesperword - 1) / bytesperword
    let p = heap + used
    if used + words > heapwords do
    $(  writes("out of memory*n")
        stop(1)
    $)
    used := used + words
    resultis p
$)

let insert(t, k) = valof
$(  if t = 0 do
    $(  t := alloc(nodesize)
        key!t := k
        left!t := 0
        right!t := 0
        resultis t
    $)
    test k < key!t
    then left!t := insert(left!t, k)
    else right!t := insert(right!t, k)
    resultis t
$)

let walk(t) be
    unless t = 0 do
    $(  walk(left!t)
        writef("%n*n", key!t)
        walk(right!t)
    $)

let start() be
$(  let space = vec heapwords
    let root = 0
    heap, used := space, 0
    for i = 1 to 9 do root := insert(root, i * 37 rem 19)
    walk(root)
$)
