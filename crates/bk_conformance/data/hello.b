// Writes `Hello, world!` and the end of its line.
GET "LIBHDR"

LET START() BE WRITES("Hello, world!*N")
