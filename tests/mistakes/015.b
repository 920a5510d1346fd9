get "libhdr2"
manifest $( hashsize = 16; word = 0; num = 1; next = 2 $)
static $( nodes = 0; free = 0 $)

let same(a, b) = valof
$(  unless a%0 = b%0 resultis false
    for i = 1 to a%0 unless a%i = b%i resultis false
    resultis true
$)

let hash(s) = valof
$(  let h = s%0
    for i = 1 to s%0 do h := (h * 31 + s%i) & #XFFFF
    resultis h rem hashsize
$)

let lookup(bucket, s) = valof
$(  let h = hash(s)
    let p = bucket!h
    until p = 0 do
    $(  if same(p!word, s) resultis p
        p := p!next
    $)
    p := nodes + free
    free := free + 3
    p!word, p!num, p!next := s, 0, bucket!h
    bucket!h := p
    resultis p
$)

let start() be
$(  let bucket = vec hashsize
    let store = vec 100
    nodes := store
    for i = 1 to 3 do
    $(  let p = lookup(bucket, i = 2 -> "sugar", "flour")
        p!num := p!num + i
    $)
    writef("flour %n*n", lookup(bucket, "flour")!num)
$)
