// The knapsack problem, with each thing at most once.
GET "LIBHDR2"
MANIFEST $( CAP = 20; ITEMS = 5 $)

LET max(a, b) = a > b -> a, b

LET knapsack(weight, worth) = VALOF
$(  LET best = VEC CAP
    FOR i = 0 TO ITEMS - 1 DO
        FOR w = CAP TO weight!i BY -1 DO
            best!w := max(best!w, best!(w - weight!i) + worth!i)
    RESULTIS best!CAP
$)

LET START() BE
$(  LET weight = TABLE 3, 4, 5, 9, 14
    LET worth = TABLE 3, 4, 4, 10, 15
    WRITEF("best: %N*N", knapsack(weight, worth))
$)
