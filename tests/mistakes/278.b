// Sorts the marks, highest first.
GET "LIBHDR2"
MANIFEST $( COUNT = 8 $)

LET FILL(V) BE
$(  LET X = 17
    FOR I = 1 TO COUNT DO
    $(  X := (X * 29 + 11) REM 101
        V!I := X
    $)
$)

LET SORT(V) BE
    FOR LAST = COUNT - 1 TO 1 BY -1 DO
        FOR I = 1 TO LAST DO
            IF V!I < V!(I+1) DO
            $(  LET T = V!I
                V!I := V!(I+1)
                V!(I+1) := T
            $)

LET START() BE
$(  LET MARK = VEC COUNT - 1
    FILL(MARK)
    SORT(MARK)
    FOR I = 1 TO COUNT DO WRITEF("%I4", MARK!I)
    NEWLINE()
$)
