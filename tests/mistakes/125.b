get "libhdr2"

let prec(op) = valof switchon op into
$(  case '+': case '-': resultis 1
    case '**': case '/': resultis 2
    case '^': resultis 3
    default: resultis 0
$)

// the operators above a limit
let list(s, limit) be
$(  for i = 1 to s%0 do
    $(  let op, precedence = s%i, prec
        if 'a' <= op <= 'z' loop
        if precedence > limit do
            writef("%c at %n*n", op, i)
    $)
$)

let start() be
$(  writef("level of ** is %n*n", prec('**'))
    list("a+b**c^d-e/f", 1)
$)
