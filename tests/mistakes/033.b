get "libhdr"

// heap with the smallest element in front
let swap(v, i, j) be
$(  let t = v!i
    v!i := v!j
    v!j := t
$)

let sift(v, i, n) be
$(  let c = 2 * i
    while c < n do
    $(  if c + 1 < n & v!(c + 1) < v!c do c := c + 1
        if v!c > v!i return
        swap(v, i, c)
        i := c
        c := i + i
    $)
$)

let start() be
$(  let heap = vec 20
    let data = table 50, 40, 60, 10, 30, 5, 20
    for i = 0 to 6 do heap!i := data!i
    for i = 3 to 0 by -1 do sift(heap, i, 7)
    for i = 6 to 0 by -1 do
    $(  writen(heap!0)
        wrch(' ')
        heap!0 := heap!i
        sift(heap, 0, i)
    $)
    newline()
$)
