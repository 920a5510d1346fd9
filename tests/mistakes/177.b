get "libhdr"
global $( heap:200; size:201 $)

let swap(i, j) be
$( let t = heap!i
   heap!i := heap!j
   heap!j := t
$)

let insert(x) be
$( let i = size + 1
   size := i
   heap!i := x
   while i > 1 & heap!i < heap!(i/2) do
   $( swap(i, i/2)
      i := i/2
   $)
$)

let sift(i) be
$( let c = 2 * i
   if c > size return
   if heap!(c+1) < heap!c do c := c + 1
   if heap!c < heap!i do
   $( swap(c, i)
      sift(c)
   $)
$)

let start() be
$( let v = vec 100
   heap, size := v, 0
   insert(40); insert(10); insert(20); insert(30)
   insert(70); insert(60)
   sift(1)
   heap!1 := 65
   sift(1)
   writen(heap!1)
   newline()
$)
