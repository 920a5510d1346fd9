get "libhdr2"

let quote(currency, amount) be
$(  let unitname, price = "EUR ", amount * 100
    switchon currency into
    $(  case 'e': endcase
        case 'p': unitname := "GBP "
                  price := amount * 85
                  endcase
        case 'd': price := amount * 140
                  unitname := "USD "
        default:  unitname := ?
                  price := 0
    $)
    if price = 0 & currency = '?' return
    writef("%s%n*n", unitname, price / 100)
$)

let start() be
$(  quote('e', 250)
    quote('p', 250)
    quote('?', 250)
    quote('d', 250)
$)
