get "libhdr"
manifest $( max = 100 $)

let start() be
$(  let sieve = vec max - 1
    let count = 0
    for i = 2 to max - 1 do sieve!i := true
    for i = 2 to max - 1 do
        if sieve!i do
        $(  let k = i + i
            count := count + 1
            writed(i, 4)
            if count rem 10 = 0 do newline()
            while k <= max do
            $(  sieve!k := false
                k := k + i
            $)
        $)
    newline()
$)
