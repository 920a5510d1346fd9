get "libhdr2"

let start() be
$(  let command = vec 4
    let count = 0
    command!0 := "insert"
    command!1 := "delete"
    command!2 := "print"
    command!3 := "write"
    command!4 := "quit"
    writes("The editor knows these commands:*n")
    for i = 0 to 4 do
    $(  writef("%i3: %n*n", i, command!i)
        count := count + 1
    $)
    writef("%n in all*n", count)
$)
