: fib ( n -- f ) dup 2 < if exit then dup 1- recurse swap 2 - recurse + ;
32 fib 0 .r cr bye
