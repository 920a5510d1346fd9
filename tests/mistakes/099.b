get "libhdr"

// bar chart
let bar(n, width) be
$(  for r = 1 to width do
        wrch(r <= n -> "**", ".")
    newline()
$)

let start() be
$(  let sales = table 3, 7, 12, 5
    for i = 0 to 3 do
    $(  writes("Q")
        writen(i + 1)
        wrch(' ')
        bar(sales!i, 15)
    $)
$)
