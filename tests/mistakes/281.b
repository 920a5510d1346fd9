// A bank account that takes its orders from the input.
GET "LIBHDR2"

LET readword(buf) BE
$(  LET n, c = 0, RDCH()
    WHILE c = ' ' | c = '*N' DO c := RDCH()
    UNTIL c = ' ' | c = '*N' | c = ENDSTREAMCH DO
    $(  n := n + 1
        buf%n := c
        c := RDCH()
    $)
    buf%0 := n
$)

LET lookup(names, n, word) = VALOF
$(  FOR i = 0 TO n - 1 DO
        IF names!i = word THEN RESULTIS i
    RESULTIS -1
$)

LET START() BE
$(  LET names, word = VEC 2, VEC 63
    LET balance = 100
    names!0, names!1, names!2 := "deposit", "withdraw", "show"
    readword(word)
    UNTIL word%0 = 0 DO
    $(  SWITCHON lookup(names, 3, word) INTO
        $(  CASE 0:  balance := balance + 10; ENDCASE
            CASE 1:  balance := balance - 10; ENDCASE
            CASE 2:  WRITEF("%N*N", balance); ENDCASE
            DEFAULT: WRITEF("%S?*N", word)
        $)
        readword(word)
    $)
$)
