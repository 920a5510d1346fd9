// The vowels of some words.
GET "LIBHDR"

LET isvowel(c) = c = 'a' | c = 'e' | c = 'i' | c = 'o' | c = 'u'

LET vowels(s) = VALOF
$(  LET i, n = 0, 0
    WHILE s%i ~= 0 DO
    $(  IF isvowel(s%i) THEN n := n + 1
        i := i + 1
    $)
    RESULTIS n
$)

LET report(s) BE
$(  WRITES(s); WRITES(": ")
    WRITEN(vowels(s)); NEWLINE()
$)

LET START() BE
$(  report("queue")
    report("banana")
    report("owl")
    report("strength")
$)
