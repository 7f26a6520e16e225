// What the library asks of its surroundings, for wasm32 with no C library: memory, and a product of 128 bits. It asks the host for nothing.
//
// The heap is a row of blocks from __heap_base up to `top`. Each begins with its size and that of the block before it; free ones that touch are one, and
// those at the end of the row leave it. So all that is given back serves again, and behind a call that gave all back the row is empty.
typedef __UINT8_TYPE__ u8;
typedef __UINT32_TYPE__ u32;
typedef __UINT64_TYPE__ u64;
#define SHOWN(name) __attribute__((export_name(name)))

// `next` and `back` are there in free blocks alone, where the bytes of a taken one begin. These bytes stand at a multiple of 16.
struct block {
  u32 before, size;
  struct block *next, *back;
};
enum { HEAD = 8, UNIT = 16, FREE = 1, PAGE = 65536, CLASSES = 112, LOOKED_AT = 8, PAGES_AT_ONCE = 16 };
// No block is longer, so that sums of two sizes stay within 32 bits.
static const u64 LARGEST = 0x7FFF0000;

extern u8 __heap_base;
// Lists of free blocks, four to a doubling of the size, and a bit for each that isn't empty.
static struct block *lists[CLASSES];
static u64 bits[2];
// Where the row ends and where memory does; the size of the last block.
static u64 top, end;
static u32 last;

static struct block *behind(struct block *it) { return (struct block *)((u8 *)it + (it->size & ~FREE)); }

static u32 class_of(u32 size) {
  u32 doublings = 31 - __builtin_clz(size);
  return (doublings - 4) * 4 + (size >> (doublings - 2) & 3);
}

static void put_into_list(struct block *it, u32 size) {
  u32 class = class_of(size);
  it->size = size | FREE;
  it->back = 0;
  it->next = lists[class];
  if (it->next) it->next->back = it;
  lists[class] = it;
  bits[class / 64] |= 1ull << class % 64;
}

// Takes a block out of its list, and answers its size.
static u32 take_from_list(struct block *it) {
  u32 size = it->size & ~FREE, class = class_of(size);
  if (it->next) it->next->back = it->back;
  if (it->back) it->back->next = it->next;
  else if (!(lists[class] = it->next)) bits[class / 64] &= ~(1ull << class % 64);
  it->size = size;
  return size;
}

// A free block of this size or more: one of the first of its own list, or any of the next list that has one.
static struct block *find(u32 size) {
  u32 class = class_of(size), looked_at = 0;
  for (struct block *it = lists[class]; it && looked_at < LOOKED_AT; it = it->next, looked_at++)
    if ((it->size & ~FREE) >= size) return it;
  class++;
  for (u32 half = class / 64; half < 2; half++, class = half * 64) {
    u64 there = bits[half] & ~0ull << class % 64;
    if (there) return lists[half * 64 + __builtin_ctzll(there)];
  }
  return 0;
}

// Whether memory reaches as far, after it has grown where it has to.
static int reaches(u64 to) {
  if (to <= end) return 1;
  u64 pages = (to - end + PAGE - 1) / PAGE, more = pages < PAGES_AT_ONCE ? PAGES_AT_ONCE : pages;
  if (end / PAGE + more > PAGE) more = pages;
  if (end / PAGE + more > PAGE || __builtin_wasm_memory_grow(0, more) == (__SIZE_TYPE__)-1) return 0;
  end += more * PAGE;
  return 1;
}

static void begin(void) {
  top = ((u64)(u32)&__heap_base + UNIT - 1) / UNIT * UNIT + HEAD;
  end = (u64)__builtin_wasm_memory_size(0) * PAGE;
}

// Gives back a block that is in no list: into one, as one with free neighbours, or off the end of the row.
static void release(struct block *it) {
  u32 size = it->size;
  if (it->before) {
    struct block *before = (struct block *)((u8 *)it - it->before);
    if (before->size & FREE) {
      size += take_from_list(before);
      it = before;
    }
  }
  it->size = size;
  struct block *next = behind(it);
  if ((u32)next != top && next->size & FREE) size += take_from_list(next);
  it->size = size;
  if ((u32)it + (u64)size == top) {
    top = (u32)it;
    last = it->before;
    return;
  }
  behind(it)->before = size;
  put_into_list(it, size);
}

// Leaves a taken block with this size, and gives back the rest.
static void cut(struct block *it, u32 size) {
  u32 rest = it->size - size;
  if (!rest) return;
  struct block *left = (struct block *)((u8 *)it + size);
  int at_the_end = (u32)it + (u64)it->size == top;
  it->size = size;
  left->before = size;
  left->size = rest;
  if (at_the_end) last = rest;
  else behind(left)->before = rest;
  release(left);
}

static u32 size_for(u64 count) { return (u32)((count + HEAD + UNIT - 1) / UNIT * UNIT); }

static void *take(u64 count) {
  if (!top) begin();
  if (count > LARGEST) return 0;
  u32 size = size_for(count);
  struct block *it = find(size);
  if (it) {
    take_from_list(it);
    cut(it, size);
    return (u8 *)it + HEAD;
  }
  if (!reaches(top + size + HEAD)) return 0;
  it = (struct block *)(u32)top;
  it->before = last;
  it->size = last = size;
  top += size;
  return (u8 *)it + HEAD;
}

// Whether a taken block has at least this size, after it has grown where it stands.
static int has(struct block *it, u32 size) {
  if (it->size >= size) return 1;
  struct block *next = behind(it);
  if ((u32)next == top) {
    if (!reaches((u64)(u32)it + size + HEAD)) return 0;
    it->size = last = size;
    top = (u64)(u32)it + size;
    return 1;
  }
  if (!(next->size & FREE) || it->size + (next->size & ~FREE) < size) return 0;
  it->size += take_from_list(next);
  behind(it)->before = it->size;
  return 1;
}

static void *take_again(void *at, u64 count) {
  if (count > LARGEST) return 0;
  struct block *it = (struct block *)((u8 *)at - HEAD);
  u32 size = size_for(count);
  if (has(it, size)) {
    cut(it, size);
    return at;
  }
  void *other = take(count);
  if (!other) return 0;
  __builtin_memcpy(other, at, it->size - HEAD);
  release(it);
  return other;
}

// What the library calls: whether there is memory, and where it is.
struct taken {
  u64 is_there, at;
};

static struct taken told(void *at) { return (struct taken){at != 0, at ? (u32)at : UNIT}; }

struct taken rattle_alloc(u64 count, u64 alignment) { return told(alignment > UNIT ? 0 : take(count)); }

struct taken rattle_realloc(void *at, u64 old, u64 count, u64 alignment) {
  (void)old;
  return told(alignment > UNIT ? 0 : take_again(at, count));
}

void rattle_dealloc(void *at) { release((struct block *)((u8 *)at - HEAD)); }

// What mulkavesh.js calls: room for what it hands over and for the answer. Null where there is none.
SHOWN("room") void *room(u32 count) { return take(count); }
SHOWN("give_back") void give_back(void *at) { rattle_dealloc(at); }

// The product that LLVM calls for one of 128 bits.
__int128 __multi3(__int128 x, __int128 y) {
  u64 a = (u64)x, b = (u64)y, a_low = (u32)a, a_high = a >> 32, b_low = (u32)b, b_high = b >> 32;
  u64 low = a_low * b_low, one = a_low * b_high, other = a_high * b_low;
  u64 middle = (low >> 32) + (u32)one + (u32)other;
  u64 high = a_high * b_high + (one >> 32) + (other >> 32) + (middle >> 32) + (u64)(x >> 64) * b + a * (u64)(y >> 64);
  return (__int128)((unsigned __int128)high << 64 | (middle << 32 | (u32)low));
}
