get "libhdr2"
global $( ch:100 $)

let next() be ch := rdch()

let skipcomment() be
    until ch = '*n' do
        next()

let start() be
$(  let n, sum = 0, 0
    next()
    until ch = endstreamch do
    $(  if ch = '#' do skipcomment()
        test '0' <= ch <= '9'
        then n := n * 10 + ch - '0'
        else $( sum := sum + n; n := 0 $)
        next()
    $)
    writef("sum %n*n", sum + n)
$)
