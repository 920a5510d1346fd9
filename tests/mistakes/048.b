get "libhdr2"
manifest $( max = 5 $)

let list(name, n) be
    for i = 0 to n - 1 do
    $(  if name%i = 0 do
        $(  writef("%i2 -*n", i)
            loop
        $)
        writef("%i2 %s*n", i, name!i)
    $)

let start() be
$(  let name = vec max
    for i = 0 to max do name!i := 0
    name!0 := "Alpha"
    name!1 := "Beta"
    name!3 := "Delta"
    writes("Directory*n")
    list(name, 4)
$)
