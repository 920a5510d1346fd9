GET "LIBHDR2"
GLOBAL $( WRITEFX:935 $)
LET START() BE
$( WRITEFX("%N+%i3=%X4 %x2 %O3*N", 2, 3, 48879, 255, 8)
   WRITEF("%S, %C, %T5|%t2|*N", "AB", '!', "CD", "EFG")
   WRITEF("100%% %Q %*N")
   WRITEF("%N%N%N%N%N%N%N%N%N%N%N%N%N%N%N%N%N%N%N%N*N", 1, 2, 3, 4, 5, 6, 7, 8, 9, 10, 11, 12, 13, 14, 15, 16, 17, 18, 19, 20)
   WRITEF("%IA|%12I|%5N|%Z4|%Z4|%5z|%U5|%u|%D3|*N", 7, 8, 9, 5, -5, 6, 7, -1, 10)
   WRITEF("%B8|%B|%X|%O|%16X|%3B*N", 5, 5, 255, 8, -1, 15)
   WRITEF("%I|%T|%S*N", 12, "AB", "CD")
   WRITEF("%F, %N*N", "<%N %S>", 1, "IN", 2)
   WRITEF("%N line%P, %N line%P*N", 1, 1, 2, 2)
   WRITEF("%P\is\are\ %+%-%N %N%$%N*N", 1, 2, 3, 4, 5)
   WRITEF("%P\is\are\.%p\one*N", 2, 2)
   // ends in the midst of a directive
   WRITEF("%"); WRITEF(""); WRITEF("|%I", 1); WRITEF("|%5", 1); WRITEF("|%P", 2); WRITEF("|%999999999999I|*N", 1)
$)
