// A table of people and their ages.
GET "LIBHDR2"
MANIFEST $( NAME = 0; BORN = 1; SIZE = 1; YEAR = 1980 $)

LET person(p, name.of, born.in) = VALOF
$(  NAME!p := name.of
    BORN!p := born.in
    RESULTIS p
$)

LET show(p) BE
    WRITEF("%S is %S years old*N", NAME!p, YEAR - BORN!p)

LET START() BE
$(  LET a, b, c = VEC SIZE, VEC SIZE, VEC SIZE
    show(person(a, "Grace", 1906))
    show(person(b, "Edsger", 1930))
    show(person(c, "Martin", 1940))
$)
