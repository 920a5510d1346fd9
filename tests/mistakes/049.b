get "libhdr2"

let max(a, b) = a > b -> a, b

// <0, 0 or >0
let compare(s, t) = valof
$(  for i = 1 to max(s%0, t%0) do
    $(  if s%i < t%i resultis -1
        if s%i > t%i resultis 1
    $)
    resultis s%0 - t%0
$)

let show(s, t) be
$(  let c = compare(s, t)
    writef("%s %s %s*n", s, c < 0 -> "before", c = 0 -> "same as", "after", t)
$)

let start() be
$(  show("cat", "dog")
    show("catalogue", "casket")
    show("cat", "catalogue")
$)
