get "libhdr"
manifest $( size = 8 $)
global $( world:120; next:121 $)

let neighbours(x, y) = valof
$(  let n = 0
    for dy = -1 to 1 do
        for dx = -1 to 1 do
        $(  if dx = 0 & dy = 0 loop
            if world!(x + dx + (y + dy) * size) do n := n + 1
        $)
    resultis n
$)

let generation() be
$(  let t = world
    for y = 1 to size - 2 do
        for x = 0 to size - 1 do
        $(  let n = neighbours(x, y)
            next!(x + y * size) := n = 3 | n = 2 & world!(x + y * size)
        $)
    world := next
    next := t
$)

let display() be
    for y = 0 to size - 1 do
    $(  for x = 0 to size - 1 do
            wrch(world!(x + y * size) -> '#', '.')
        newline()
    $)

let start() be
$(  let a, b = vec size * size, vec size * size - 1
    for i = 0 to size * size - 1 do a!i, b!i := false, false
    world, next := a, b
    for x = 2 to 4 do world!(x + 3 * size) := true
    display()
    generation()
    display()
$)
