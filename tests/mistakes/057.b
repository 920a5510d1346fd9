get "libhdr"

// copy n words of src to dst in reverse order
let reverse(dst, src, n) be
$(  src := src + n
    while n > 0 do
    $(  !dst := !src
        dst := dst + 1
        src := src - 1
        n := n - 1
    $)
$)

let start() be
$(  let a = vec 4
    let b = vec 4
    for i = 0 to 4 do a!i := i * i
    reverse(b, a, 5)
    for i = 0 to 4 do writed(b!i, 4)
    newline()
$)
