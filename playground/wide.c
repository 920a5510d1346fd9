// Products and shifts of 128 bits, which clang calls by these names where a processor has none.
typedef unsigned long u64;
typedef unsigned __int128 u128;

static u128 joined(u64 high, u64 low) {
  union { u64 half[2]; u128 whole; } it = {{low, high}};
  return it.whole;
}

u128 __multi3(u128 a, u128 b) {
  u64 x = (u64)a, y = (u64)b, m = 0xffffffff;
  u64 low = (x & m) * (y & m), mid1 = (x >> 32) * (y & m), mid2 = (x & m) * (y >> 32);
  u64 mid = (low >> 32) + (mid1 & m) + (mid2 & m);
  u64 high = (x >> 32) * (y >> 32) + (mid1 >> 32) + (mid2 >> 32) + (mid >> 32);
  union { u128 whole; u64 half[2]; } p = {a}, q = {b};
  return joined(high + p.half[1] * y + x * q.half[1], (mid << 32) | (low & m));
}

u128 __ashlti3(u128 a, int by) {
  union { u128 whole; u64 half[2]; } it = {a};
  if (by & 64) return joined(it.half[0] << (by & 63), 0);
  if (!by) return a;
  return joined(it.half[1] << by | it.half[0] >> (64 - by), it.half[0] << by);
}

u128 __lshrti3(u128 a, int by) {
  union { u128 whole; u64 half[2]; } it = {a};
  if (by & 64) return joined(0, it.half[1] >> (by & 63));
  if (!by) return a;
  return joined(it.half[1] >> by, it.half[0] >> by | it.half[1] << (64 - by));
}

u128 __ashrti3(u128 a, int by) {
  union { u128 whole; long half[2]; } it = {a};
  if (by & 64) return joined(it.half[1] >> 63, it.half[1] >> (by & 63));
  if (!by) return a;
  return joined(it.half[1] >> by, (u64)it.half[0] >> by | (u64)it.half[1] << (64 - by));
}
