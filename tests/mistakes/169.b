get "libhdr"
manifest $( freezing = 32; step = 8 $)

let fahr(c) = c * 9 / 5 + freezing

let row(c) be
$( writed(c, 6)
   writed(fahr(c), 8)
   newline()
$)

let start() be
$( let c = 0
   writes("   C       F*N")
   until c = 100 do
   $( row(c)
      c := c + step
   $)
   writes("water boils*n")
$)
