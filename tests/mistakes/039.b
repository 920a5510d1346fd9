get "libhdr"
manifest $( lines = 8 $)

// Pascal's triangle
let start() be
$(  let row = vec lines
    for i = 0 to lines do row!i := 0
    row!0 := 1
    for i = 1 to lines do
    $(  for j = 0 to lines - i do wrch('*s')
        for j = 0 to i - 1 do
        $(  writen(row!j)
            wrch('*s')
        $)
        newline()
        for k = i to 0 by -1 do
            row!k := row!k + row!(k - 1)
    $)
$)
