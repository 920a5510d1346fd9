// mapcar over a list of numbers
GET "LIBHDR"

LET cons(head, tail) = VALOF
$(  LET cell = VEC 1
    cell!0 := head
    cell!1 := tail
    RESULTIS cell
$)

LET square(x) = x * x

LET mapcar(f, list) = list = 0 -> 0,
    cons(f(list!0), mapcar(f, list!1))

LET show(list) BE
$(  WRCH('(')
    UNTIL list = 0 DO
    $(  WRITEN(list!0)
        list := list!1
        IF list ~= 0 DO WRCH(' ')
    $)
    WRITES(")*N")
$)

LET START() BE
$(  LET l = cons(1, cons(2, cons(3, cons(4, 0))))
    show(l)
    show(mapcar(square, l))
$)
