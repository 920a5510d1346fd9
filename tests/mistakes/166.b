Get "LIBHDR2"
Global $( Keys:200; Left:201; Right:202; Last:203; Root:204 $)

Let NewNode(K) = Valof
$( Last := Last + 1
   Keys!Last, Left!Last, Right!Last := K, 0, 0
   Resultis Last
$)

Let Insert(T, K) = Valof
$( If T = 0 Resultis NewNode(K)
   Test K < Keys!T
   Then Left!T := Insert(Left!T, K)
   Or Right!T := Insert(Right!T, K)
   Resultis T
$)

Let Member(K) = Valof
$( Let T = Root
   Until Keys!T = K Do
      T := K < Keys!T -> Left!T, Right!T
   Resultis TRUE
$)

Let Start() Be
$( Let V1 = Vec 20
   Let V2 = Vec 20
   Let V3 = Vec 20
   Keys, Left, Right, Last, Root := V1, V2, V3, 0, 0
   Root := Insert(Root, 50)
   Root := Insert(Root, 20)
   Root := Insert(Root, 80)
   Root := Insert(Root, 60)
   Writef("60 %S*N", Member(60) -> "yes", "no")
   Writef("30 %S*N", Member(30) -> "yes", "no")
$)
