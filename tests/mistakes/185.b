get "libhdr2"
global $( count:200 $)

let isletter(c) = 'a' <= c <= 'z' | 'A' <= c <= 'Z'

let note(i) be
   count!i := count!i + 1

let readtext() be
$( let c = rdch()
   until c = endstreamch do
   $( if isletter(c) do note(c - 'a')
      c := rdch()
   $)
$)

let start() be
$( let v = vec 25
   count := v
   for i = 0 to 25 do v!i := 0
   readtext()
   for i = 0 to 25 do
      if v!i > 0 do writef("%c %i3*n", i + 'a', v!i)
$)
