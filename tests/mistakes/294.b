// Mean and spread of some heights.
GET "LIBHDR2"

LET sum(v, n) = VALOF
$(  LET s = 0
    FOR i = 0 TO n - 1 DO s := s + v!i
    RESULTIS s
$)

LET mean(v, n) = sum(v!0, n) / n

LET spread(v, n) = VALOF
$(  LET lo, hi = v!0, v!0
    FOR i = 1 TO n - 1 DO
    $(  IF v!i < lo DO lo := v!i
        IF v!i > hi DO hi := v!i
    $)
    RESULTIS hi - lo
$)

LET START() BE
$(  LET heights = TABLE 172, 181, 165, 190, 168, 177
    WRITEF("spread %N*N", spread(heights, 6))
    WRITEF("mean %N*N", mean(heights, 6))
$)
