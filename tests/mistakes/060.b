get "libhdr2"

let start() be
$(  let ch = rdch
    let lines, words, chars = 0, 0, 0
    let inword = false
    until ch = endstreamch do
    $(  chars := chars + 1
        if ch = '*n' do lines := lines + 1
        test ch = '*s' | ch = '*n' | ch = '*t'
        then inword := false
        else unless inword do
        $(  words := words + 1
            inword := true
        $)
        ch := rdch()
    $)
    writef("%i5 %i5 %i5*n", lines, words, chars)
$)
