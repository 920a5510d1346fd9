get "libhdr2"

let index(s, ch) = valof
$( let pos = ?
   let n = getbyte(s, 0)
   for i = 1 to n do
      if getbyte(s, i) = ch do
      $( let pos = i
         writef("%c found at %n*n", ch, pos)
         break
      $)
   resultis pos
$)

let dots(n) be for i = 1 to n do wrch('.')

let start() be
$( let text = "bread and butter"
   let p = index(text, 'a')
   writes(text)
   newline()
   dots(p - 1)
   wrch('^')
   newline()
$)
