get "libhdr"

let strlen(s) = valof
$( let i = 0
   while getbyte(s, i) ne 0 do
      i := i + 1
   resultis i
$)

let underline(s) be
$( writes(s)
   newline()
   for i = 1 to strlen(s) do wrch('-')
   newline()
$)

let start() be
$( underline("Chapter")
   writes("It was a dark and stormy night.*n")
$)
