// LIST KEPT IN ORDER
GET "LIBHDR2"
MANIFEST $( KEY = 0; NEXT = 1 $)
GLOBAL $( HEAD:110; FREE:111 $)

LET CELL(K, L) = VALOF
$(  LET C = FREE
    FREE := FREE + 2
    KEY!C := K
    NEXT!C := L
    RESULTIS C
$)

LET BEFORE(P, K) = P ~= 0 & KEY!P < K

LET INSERT(K) BE
$(  LET L = @HEAD
    WHILE BEFORE(!L, K) DO L := @(NEXT!(!L))
    !L := CELL(K, !L)
$)

LET START() BE
$(  LET V = VEC 50
    HEAD, FREE := 0, V
    FOR I = 1 TO 10 DO INSERT(I * 17 REM 23)
    UNTIL HEAD = 0 DO
    $(  WRITEF("%N ", KEY!HEAD)
        HEAD := NEXT!HEAD
    $)
    NEWLINE()
$)
