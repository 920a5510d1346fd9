get "libhdr2"
manifest $( towns = 4; roads = 5; far = 99999 $)
global $( dist:100 $)

let reach(t, d) be
$(  let from = table 0, 1, 2, 3, 1
    let into.t = table 1, 2, 3, 1, 3
    let length = table 4, 2, 7, 3, 5
    dist!t := d
    for r = 0 to roads - 1 do
        if from!r = t do
        $(  let to.r, e = into.t!r, d + length!r
            if e ~= dist!to.r do reach(to.r, e)
        $)
$)

let start() be
$(  let v = vec towns - 1
    dist := v
    for i = 0 to towns - 1 do v!i := far
    reach(0, 0)
    for i = 0 to towns - 1 do
        writef("town %n: %n*n", i, dist!i)
$)
