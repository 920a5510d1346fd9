get "libhdr2"

let ticket() = valof
$( let n = ?
   n := n + 1
   resultis n
$)

let customer(name) be
   writef("%s draws ticket %n*n", name, ticket())

let start() be
$( customer("Ann")
   customer("Bob")
   customer("Carol")
   writes("closed*n")
$)
