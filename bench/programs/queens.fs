variable count
variable everything
: attempt { ld row rd -- }
  row everything @ = if 1 count +! exit then
  ld row or rd or invert everything @ and
  begin dup while
    dup dup negate and
    tuck -
    swap dup ld + 1 lshift swap dup row + swap rd + 1 rshift recurse
  repeat drop ;
: all ( -- )
  1 everything !
  12 1 do 0 count ! 0 0 0 attempt count @ 0 .r cr everything @ 2* 1+ everything ! loop ;
all bye
