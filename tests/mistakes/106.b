get "libhdr"
manifest $( width = 8; height = 5 $)
global $( map:100; n:101 $)

let fill(x, y) be
$(  let i = x + y * width
    unless 0 <= x < width & 0 <= y < height return
    unless map!i = '*s' return
    n := n + 1
    fill(x + 1, y); fill(x - 1, y); fill(x, y + 1); fill(x, y - 1)
$)

let row(y, s) be
    for x = 0 to width - 1 do map!(x + y * width) := s%(x + 1)

let start() be
$(  let v = vec width * height - 1
    map, n := v, 0
    row(0, "########")
    row(1, "#   #  #")
    row(2, "# # #  #")
    row(3, "# #    #")
    row(4, "########")
    fill(1, 1)
    writen(n)
    writes(" squares*n")
$)
