GET "LIBHDR"

// straight insertion, ported from a Pascal textbook
let insertsort(v, n) be
$(  for i = 1 to n - 1 do
    $(  let key, j = v!i, i - 1
        while v!j > key do
        $(  v!(j + 1) := v!j
            j := j - 1
        $)
        v!(j + 1) := key
    $)
$)

let start() be
$(  let v = vec 6
    let data = table 31, 41, 59, 26, 53, 58, 97
    for i = 0 to 6 do v!i := data!i
    insertsort(v, 7)
    for i = 0 to 6 do
    $(  writen(v!i)
        wrch(i = 6 -> '*n', ' ')
    $)
$)
