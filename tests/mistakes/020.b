get "libhdr"

// binary search with pointers in place of indices
let search(lo, hi, key) = valof
$(  while lo <= hi do
    $(  let mid = (lo + hi) / 2
        if !mid = key resultis mid
        test !mid < key then lo := mid + 1 else hi := mid - 1
    $)
    resultis 0
$)

let start() be
$(  let primes = table 2, 3, 5, 7, 11, 13, 17, 19, 23, 29
    let p = search(primes, primes + 9, 17)
    test p = 0
    then writes("no prime*n")
    else
    $(  writes("prime number ")
        writen(p - primes + 1)
        newline()
    $)
$)
