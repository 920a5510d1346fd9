GET "LIBHDR"

// write a text without its blanks
LET squeeze(s) BE
$(  LET i = 1
    WHILE i <= s%0 DO
    $(  IF s%i = '*S' LOOP
        WRCH(s%i)
        i := i + 1
    $)
    NEWLINE()
$)

LET start() BE
$(  squeeze("nothing")
    squeeze("to be or not to be")
    squeeze("that is the question")
$)
