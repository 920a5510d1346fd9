// The heap of the module, over the module's own memory: small blocks of powers of two, with a list of free ones for each, and large blocks
// of whole pages, which are joined when they are free and grow in their place where there is room. So a program that is grown to the limits
// of the kit fits into the memory that a page can have.
// It defines what the toolchain's libc/c/heap.c defines over malloc: rattle_alloc, rattle_realloc and rattle_dealloc.
typedef unsigned long u64;
typedef unsigned char u8;
typedef struct { u64 ok; void* p; } Tried;
typedef struct Block { u64 size; struct Block* next; } Block; // 16 bytes before what is handed out

#define SMALL 15   // the greatest order of a small block, of 2^15 bytes
#define PAGE 4096ul // the sizes of large blocks are its multiples
#define CHUNK 65536ul // small blocks are cut from large ones of this size

extern u8 __heap_base;
static u8* top;                       // the end of what is in blocks
static Block* small_lists[SMALL + 1]; // the free small blocks of each order
static u8 *chunk, *chunk_end;         // what is left of the large block that small ones are cut from
static Block* large;                  // the free large blocks, by their addresses
static u64 held, most;                // bytes in blocks that are handed out, now and at the most

static u64 order_of(u64 n) { // the least order with 2^order >= n + 16
  u64 m = n + sizeof(Block);
  return m <= 32 ? 5 : 64 - __builtin_clzl(m - 1);
}

static u8* end_of(Block* b) { return (u8*)b + b->size; }

// Whether the memory goes up to an address; it grows if it has to.
static int reaches(u8* end) {
  u64 pages = __builtin_wasm_memory_size(0);
  if ((u64)end <= pages << 16) return 1;
  u64 more = (((u64)end - (pages << 16)) + 65535) >> 16;
  // (a memory that is refused is -1: of 64 bits, or of 32 bits where wasm-opt has lowered the addresses)
  return (unsigned)__builtin_wasm_memory_grow(0, more) != ~0u;
}

// Makes a block at least as large, if it is the last one, or if the free block after it is large enough; the rest of that stays free.
static int grows(Block* b, u64 size, Block** after) {
  Block* next = *after;
  u8* end = end_of(b);
  if (next && (u8*)next == end) end = end_of(next);
  else next = 0;
  if ((u64)(end - (u8*)b) < size) {
    if (end != top || !reaches((u8*)b + size)) return 0;
    end = top = (u8*)b + size;
  }
  if (next) *after = next->next;
  u64 rest = (u64)(end - (u8*)b) - size;
  if (rest) {
    Block* left = (Block*)((u8*)b + size);
    *left = (Block){rest, *after};
    *after = left;
  }
  b->size = size;
  return 1;
}

// Where the list of the free large blocks goes past an address.
static Block** past(Block* b) {
  Block** at = &large;
  while (*at && *at < b) at = &(*at)->next;
  return at;
}

static Block* take_large(u64 size) {
  for (Block** at = &large; *at; at = &(*at)->next) {
    Block* b = *at;
    if (b->size < size && end_of(b) != top) continue;
    u64 was = b->size;
    *at = b->next;
    b->size = was < size ? was : size;
    if (was > size) {
      Block* left = (Block*)((u8*)b + size);
      *left = (Block){was - size, *at};
      *at = left;
    }
    if (was >= size || grows(b, size, at)) return b;
    *at = b;
    break;
  }
  if (!top) top = (u8*)(((u64)&__heap_base + 15) & ~15ul);
  if (!reaches(top + size)) return 0;
  Block* b = (Block*)top;
  top += size;
  b->size = size;
  return b;
}

static void give_large(Block* b) {
  Block **at = &large, *before = 0;
  for (; *at && *at < b; at = &(*at)->next) before = *at;
  b->next = *at;
  *at = b;
  if (b->next && end_of(b) == (u8*)b->next) *b = (Block){b->size + b->next->size, b->next->next};
  if (before && end_of(before) == (u8*)b) *before = (Block){before->size + b->size, b->next};
}

static Block* take_small(u64 order) {
  Block* b = small_lists[order];
  if (b) small_lists[order] = b->next;
  else {
    if ((u64)(chunk_end - chunk) < 1ul << order) {
      Block* whole = take_large(CHUNK);
      if (!whole) return 0;
      chunk = (u8*)whole; // (what is left of the one before is less than one small block)
      chunk_end = chunk + CHUNK;
    }
    b = (Block*)chunk;
    chunk += 1ul << order;
  }
  b->size = 1ul << order;
  return b;
}

static int is_small(u64 size) { return size <= 1ul << SMALL; }

static void* take(u64 n) {
  if (n >= 1ul << 40) return 0;
  u64 order = order_of(n);
  Block* b = order <= SMALL ? take_small(order) : take_large((n + sizeof(Block) + PAGE - 1) & ~(PAGE - 1));
  if (!b) return 0;
  held += b->size;
  if (held > most) most = held;
  return b + 1;
}

static void give(void* p) {
  Block* b = (Block*)p - 1;
  held -= b->size;
  if (!is_small(b->size)) return give_large(b);
  u64 order = order_of(b->size - sizeof(Block));
  b->next = small_lists[order];
  small_lists[order] = b;
}

Tried rattle_alloc(u64 n, u64 a) {
  void* p = take(n ? n : a);
  return (Tried){p != 0, p ? p : (void*)a};
}

Tried rattle_realloc(void* p, u64 kept, u64 n, u64 a) {
  if (!n) n = a;
  Block* b = (Block*)p - 1;
  u64 was = b->size;
  if (n + sizeof(Block) <= was) return (Tried){1, p};
  if (n < 1ul << 40 && !is_small(was) && grows(b, (n + sizeof(Block) + PAGE - 1) & ~(PAGE - 1), past(b))) {
    held += b->size - was;
    if (held > most) most = held;
    return (Tried){1, p};
  }
  void* q = take(n);
  if (!q) return (Tried){0, (void*)a};
  __builtin_memcpy(q, p, kept < n ? kept : n);
  give(p);
  return (Tried){1, q};
}

void rattle_dealloc(void* p) { give(p); }

// For the page: room for what it passes, and what is held.
void* page_take(u64 n) { return take(n); }
void page_give(void* p) { give(p); }
u64 page_held(void) { return held; }
u64 page_most(void) { return most; }
