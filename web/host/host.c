// What stands for an operating system and a C library where the program is WebAssembly with 64-bit addresses: a heap,
// standard input and standard output in memory, and the words of the command line.
//
// Whoever runs the program takes a new instance for each run. It puts the words at room_for_words(bytes, count), each
// with a zero byte behind it and the first the program's name, and standard input at room_for_input(bytes); either is 0
// where memory is wanting. Then it calls start(), which gives the status, and takes output_size() bytes at output().
typedef unsigned long u64;
typedef long i64;
typedef unsigned char u8;
typedef unsigned int u32;

// The heap: blocks of 2^class bytes behind 16 bytes that hold the class, and a list of the free blocks of each class.

enum { BLOCK_HEAD = 16, LEAST_CLASS = 4, CLASSES = 41, PAGE = 65536, LEAST_GROWTH = 256 };
extern u8 __heap_base;
static u8 *unused;  // the first byte that is in no block
static void *free_blocks[CLASSES];

static u32 class_of(u64 size) {
  u32 class = LEAST_CLASS;
  while (((u64)1 << class) < size) class++;
  return class;
}

static u64 *head_of(void *block) { return (u64 *)((u8 *)block - BLOCK_HEAD); }

// whether the memory goes up to an address; it is made to, where it can be
static int reaches(u64 address) {
  u64 pages = __builtin_wasm_memory_size(0), wanted = (address + PAGE - 1) / PAGE;
  if (wanted <= pages) return 1;
  u64 growth = wanted - pages < LEAST_GROWTH ? LEAST_GROWTH : wanted - pages;
  return __builtin_wasm_memory_grow(0, growth) != (u64)-1;
}

static void *allocate(u64 size) {
  if (size > (u64)1 << (CLASSES - 1)) return 0;
  u32 class = class_of(size);
  void *block = free_blocks[class];
  if (block) {
    free_blocks[class] = *(void **)block;
    return block;
  }
  if (!unused) unused = (u8 *)(((u64)&__heap_base + BLOCK_HEAD - 1) / BLOCK_HEAD * BLOCK_HEAD);
  u8 *next = unused + BLOCK_HEAD + ((u64)1 << class);
  if (!reaches((u64)next)) return 0;
  block = unused + BLOCK_HEAD;
  *head_of(block) = class;
  unused = next;
  return block;
}

static void release(void *block) {
  u64 class = *head_of(block);
  *(void **)block = free_blocks[class];
  free_blocks[class] = block;
}

void *memcpy(void *to, const void *from, u64 size) { return __builtin_memcpy(to, from, size); }
void *memmove(void *to, const void *from, u64 size) { return __builtin_memmove(to, from, size); }
void *memset(void *to, int byte, u64 size) { return __builtin_memset(to, byte, size); }
int memcmp(const void *one, const void *other, u64 size) {
  const u8 *a = one, *b = other;
  for (; size; size--, a++, b++)
    if (*a != *b) return *a - *b;
  return 0;
}

// What the program calls for memory: an allocation that fails gives an address that is no null all the same.

struct tried { u64 there; void *block; };
static const struct tried none = { 0, (void *)BLOCK_HEAD };

struct tried rattle_alloc(u64 size, u64 alignment) {
  void *block = alignment <= BLOCK_HEAD ? allocate(size) : 0;
  return block ? (struct tried){ 1, block } : none;
}

struct tried rattle_realloc(void *block, u64 kept, u64 size, u64 alignment) {
  if (class_of(size) == *head_of(block)) return (struct tried){ 1, block };
  struct tried moved = rattle_alloc(size, alignment);
  if (!moved.there) return none;
  memcpy(moved.block, block, kept < size ? kept : size);
  release(block);
  return moved;
}

void rattle_dealloc(void *block) { release(block); }

// The streams and the words.

static u8 *input, *written, *words;
static u64 input_size, input_taken, written_size, written_room, word_count;

u8 *room_for_input(u64 size) {
  input_size = size;
  return input = allocate(size);
}

u8 *room_for_words(u64 size, u64 count) {
  word_count = count;
  return words = allocate(size);
}

u8 *output(void) { return written; }
u64 output_size(void) { return written_size; }

i64 read(int stream, u8 *to, u64 size) {
  u64 left = input_size - input_taken, taken = size < left ? size : left;
  memcpy(to, input + input_taken, taken);
  input_taken += taken;
  return taken;
}

i64 write(int stream, const u8 *from, u64 size) {
  if (stream != 1) return size;
  if (written_size + size > written_room) {
    u64 room = 2 * (written_size + size);
    u8 *larger = allocate(room);
    if (!larger) return -1;
    memcpy(larger, written, written_size);
    if (written) release(written);
    written = larger;
    written_room = room;
  }
  memcpy(written + written_size, from, size);
  written_size += size;
  return size;
}

i64 rattle_arg_count(void) { return word_count; }

// a word's size, which is put at `to`: -1 where there is no such word, -2 where it is larger than the room
i64 rattle_arg(u64 number, u8 *to, u64 room) {
  if (number >= word_count) return -1;
  const u8 *word = words;
  for (; number; number--)
    while (*word++) {}
  u64 size = 0;
  for (; word[size]; size++) {
    if (size == room) return -2;
    to[size] = word[size];
  }
  return size;
}

// What the C library has besides. Nothing here fails but for memory, so no error ever has a number.

static int error;
int rattle_errno(void) { return error; }
void rattle_set_errno(int number) { error = number; }
i64 __sysv_signal(int number, i64 handler) { return 0; }
i64 lseek(int stream, i64 offset, int from) { return -1; }
int __xpg_strerror_r(int number, u8 *to, u64 room) {
  if (room) *to = 0;
  return 0;
}

int main(int count, u8 **given);
int start(void) { return main(0, 0); }
