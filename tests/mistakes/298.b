// Counts how words fall into the chains of a hash table.
GET "LIBHDR2"
MANIFEST $( SIZE = 13 $)

LET hash(s) = VALOF
$(  LET h = 5381
    FOR i = 1 TO s%0 DO h := h * 33 + s%i
    RESULTIS h REM SIZE
$)

LET enter(chains, s) BE
$(  LET k = hash(s)
    chains!k := chains!k + 1
$)

LET START() BE
$(  LET chains = VEC SIZE - 1
    FOR i = 0 TO SIZE - 1 DO chains!i := 0
    enter(chains, "cat")
    enter(chains, "dog")
    enter(chains, "horse")
    enter(chains, "elephant")
    enter(chains, "tortoise")
    FOR i = 0 TO SIZE - 1 DO WRITEF("%I3: %N*N", i, chains!i)
$)
