get "libhdr"

let show(v, n) be
$(  for i = 0 to n - 1 do $( writen(v!i); wrch('*s') $)
    newline()
$)

// put x into the ordered v!0 .. v!(n-1)
let insert(v, n, x) be
$(  let k = 0
    while k < n & v!k < x do k := k + 1
    for i = n to k by -1 do
        v!(i + 1) := v!i
    v!k := x
$)

let start() be
$(  let v = vec 50
    let n = 0
    let x = 17
    for i = 1 to 8 do
    $(  insert(v, n, x)
        n := n + 1
        show(v, n)
        x := x * 17 rem 83
    $)
$)
