// depth of a tree
GET "LIBHDR2"
MANIFEST $( KEY = 0; LEFT = 1; RIGHT = 2; NODESIZE = 3 $)
STATIC $( store = 0 $)

LET insert(t, k) = VALOF
$(  IF t = 0 DO
    $(  t := store
        store := store + NODESIZE
        KEY!t, LEFT!t, RIGHT!t := k, 0, 0
        RESULTIS t
    $)
    TEST k < KEY!t
    THEN LEFT!t := insert(LEFT!t, k)
    ELSE RIGHT!t := insert(RIGHT!t, k)
    RESULTIS t
$)

LET depth(t) = VALOF
$(  LET l = depth(LEFT!t)
    LET r = depth(RIGHT!t)
    RESULTIS 1 + (l > r -> l, r)
$)

LET START() BE
$(  LET space, tree = VEC 100, 0
    store := space
    FOR i = 1 TO 12 DO tree := insert(tree, i * 8 REM 13)
    WRITEF("depth %N*N", depth(tree))
$)
