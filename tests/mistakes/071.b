get "libhdr2"
manifest $( key = 0; left = 1; right = 2; nodesize = 3 $)
static $( root = 0 $)
global $( space:100; used:101 $)

let newnode(k) = valof
$(  let t = space + used
    used := used + nodesize
    t!key, t!left := k, 0
    resultis t
$)

let insert(k) be
$(  let t = root
    if root = 0 do $( root := newnode(k); return $)
    $(  let branch = k < t!key -> left, right
        if k = t!key return
        if branch!t = 0 do
        $(  branch!t := newnode(k)
            return
        $)
        t := branch!t
    $) repeat
$)

let print(t) be
    unless t = 0 do
    $(  print(t!left)
        writef("%n ", t!key)
        print(t!right)
    $)

let start() be
$(  let v = vec 90
    space, used := v, 0
    insert(50); insert(30); insert(20); insert(30); insert(70)
    print(root)
    newline()
$)
