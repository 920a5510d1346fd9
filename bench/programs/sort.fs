20000 constant n
variable seed
create v n cells allot
: at ( i -- a ) cells v + ;
: rand ( -- x ) seed @ 1103515245 * 12345 + $FFFFFFFF and dup seed ! 8 rshift $FFFF and ;
: qsort { l r -- }
  l r < 0= if exit then
  l r + 2/ at @ l r { p i j }
  begin
    begin i at @ p < while i 1+ to i repeat
    begin p j at @ < while j 1- to j repeat
    i j <= if
      i at @ j at @ i at ! j at !
      i 1+ to i  j 1- to j
    then
    i j >
  until
  l j recurse  i r recurse ;
variable bad
: run ( -- )
  1 seed ! 0 bad !
  20 0 do
    n 0 do rand i at ! loop
    0 n 1- qsort
    n 1 do i at @ i 1- at @ < if 1 bad +! then loop
  loop
  bad @ 0 .r n 2/ at @ 0 .r cr ;
run bye
