// COUNTS DIGITS, LETTERS, LINES AND THE REST
GET "LIBHDR2"

LET LETTER(C) = 'a' <= C <= 'z' | 'A' <= C <= 'Z'

LET START() BE
$(  LET DIGITS, LETTERS, LINES, REST = 0, 0, 0, 0
    LET C = RDCH()
    UNTIL C = ENDSTREAMCH DO
    $(  SWITCHON C INTO
        $(  CASE '*N':
                LINES := LINES + 1
                ENDCASE
            CASE '0': CASE '1': CASE '2': CASE '3': CASE '4':
            CASE '5': CASE '6': CASE '7': CASE '8': CASE '9':
                DIGITS := DIGITS + 1
                ENDCASE
            DEFAULT:
                TEST LETTER(C)
                THEN LETTERS := LETTERS + 1
                ELSE REST := REST + 1
        $)
        C := RDCH
    $)
    WRITEF("%N DIGITS, %N LETTERS, ", DIGITS, LETTERS)
    WRITEF("%N LINES, %N OTHERS*N", LINES, REST)
$)
