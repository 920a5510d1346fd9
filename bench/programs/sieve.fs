30000 constant lim
60 constant rounds
create v lim 1+ cells allot
: one ( -- count )
  lim 1+ 2 do true v i cells + ! loop
  0 lim 1+ 2 do
    v i cells + @ if
      1+ i i +
      begin dup lim <= while false over cells v + ! i + repeat drop
    then
  loop ;
: sieve ( -- count ) 0 rounds 0 do drop one loop ;
sieve 0 .r cr bye
