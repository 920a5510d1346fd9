// fields.b: the fields of SLCT and OF. A selector is a word: size << 24 | shift << 16 | offset.
GLOBAL $( GETFIELD:936; PUTFIELD:937 $)

// GETFIELD(S, P) is the field S of the vector P: so many bits as the size says, the lowest of them shifted so far, in the word at the
// offset. A size of 0 is that of the rest of the word.
LET GETFIELD(S, P) = (S >> 16) = 0 -> P!(S & #XFFFF), (P!(S & #XFFFF) >> ((S >> 16) & #XFF)) & MASK(S >> 24)

// PUTFIELD(S, P, V) sets that field to V.
AND PUTFIELD(S, P, V) BE
$( LET SHIFT, BITS, I = (S >> 16) & #XFF, MASK(S >> 24), S & #XFFFF
   TEST (S >> 16) = 0 DO P!I := V OR P!I := (P!I & ~(BITS << SHIFT)) | ((V & BITS) << SHIFT)
$)

// The lowest bits, so many as the size says.
AND MASK(SIZE) = SIZE = 0 | SIZE > 31 -> -1, (1 << SIZE) - 1
.
