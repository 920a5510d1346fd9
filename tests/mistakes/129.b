get "libhdr2"
// a name has up to 8 characters
manifest $( players = 6; words = 3 $)

let start() be
$(  let text = vec players * 8 / bytesperword
    let name = vec players - 1
    for i = 0 to players - 1 do
    $(  name!i := text + i * words
        name!i%0 := 0
    $)
    for i = 0 to players - 1 do
    $(  let s = name!i
        s%0 := 1
        s%1 := 'A' + i
    $)
    for i = 0 to players - 1 do
        writef("%s*n", name!i)
$)
