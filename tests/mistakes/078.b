get "libhdr2"

let palindrome(s) = valof
$(  let i, j = 1, s%0 + 1
    // compare from both ends
    while i < j do
    $(  if s%i ~= s%j resultis false
        i := i + 1
        j := j - 1
    $)
    resultis true
$)

let test.it(s) be
    writef("%s is %sa palindrome*n", s, palindrome(s) -> "", "not ")

let start() be
$(  test.it("level")
    test.it("noon")
    test.it("rotor")
    test.it("deified")
    test.it("compass")
$)
