get "libhdr2"

let find(v, n, x) = valof
$( let i = ?
   for i = 0 to n-1 do
      if v!i = x break
   resultis i
$)

let start() be
$( let codes = table 17, 23, 5, 42, 8
   let price = table 100, 250, 75, 990, 30
   let wanted = 42
   let p = find(codes, 5, wanted)
   writef("article %n costs ", wanted)
   writen(price!p)
   newline()
$)
