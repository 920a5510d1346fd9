// counts words; a # starts a comment up to the end of the line
GET "LIBHDR2"
LET START() BE
$(  LET c, words, notes = ?, 0, 0

GAP:    c := RDCH()
        IF c = ENDSTREAMCH GOTO DONE
        IF c = '#' GOTO NOTE
        IF c = ' ' | c = '*N' GOTO GAP
        words := words + 1
INWORD: c := RDCH()
        IF c = ENDSTREAMCH GOTO DONE
        IF c = '#' GOTO NOTE
        IF c = ' ' | c = '*N' GOTO GAP
        GOTO INWORD
NOTE:   notes := notes + 1
        c := RDCH()
SKIP:   IF c = ENDSTREAMCH GOTO DONE
        IF c = '*N' GOTO GAP
        GOTO SKIP
DONE:   WRITEF("%N words, %N comments*N", words, notes)
$)
