get "libhdr2"
manifest $( hall = 1; cave = 2; tower = 3 $)

let move(room, dir) = valof
    switchon dir into
    $(  case 'n': if room = hall resultis tower
                  endcase
        case 's': if room = tower resultis hall
                  endcase
        case 'e': if room = hall resultis cave
                  endcase
        case 'w': if room = cave resultis hall
    $)

let describe(room) be
    switchon room into
    $(  case hall:  writes("You are in a great hall.*n"); endcase
        case cave:  writes("It is dark in here.*n"); endcase
        case tower: writes("You see far over the land.*n")
    $)

let start() be
$(  let script = "newnsew"
    let room, new = hall, ?
    describe(room)
    for i = 1 to script%0 do
    $(  writef("> %c*n", script%i)
        new := move(room, script%i)
        room := new
        describe(room)
    $)
$)
