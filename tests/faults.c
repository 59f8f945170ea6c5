// Refuses or shortens calls of the program that it is loaded before (LD_PRELOAD): of malloc and realloc, of read, of write.
//
//   FAULT_IN      allocation, read or write: which calls are counted, from 1, and of which one fails
//   FAULT_AT      the number of the call that fails
//   FAULT_LATER   where it's set, all calls behind it fail too
//   FAULT_ERROR   the errno of the call that fails: 12 of an allocation and 5 of the others where it isn't set
//   SHORT_IN      read or write: of which one takes a single byte
//   SHORT_AT      the number of that call
//   SHORT_LATER   where it's set, all calls behind it take a single byte too
//   COUNT_TO      the descriptor that the numbers of allocations, reads and writes are written to at the end
//
// Calls before main's start and those of the C library to itself aren't counted. It's built without headers.

typedef unsigned long size_t;
typedef long ssize_t;

extern void *dlsym(void *, const char *);
extern char *getenv(const char *);
extern int atoi(const char *);
extern int strcmp(const char *, const char *);
extern int *__errno_location(void);

enum { ALLOCATION, READ, WRITE, KINDS };
static const char *const names[KINDS] = {"allocation", "read", "write"};

struct Asked {
    int kind;
    int at;
    int later;
};

static struct Asked fault = {-1, 0, 0}, shortened = {-1, 0, 0};
static int counts[KINDS];
static int error, counting;
static void *(*next_malloc)(size_t);
static void *(*next_realloc)(void *, size_t);
static ssize_t (*next_read)(int, void *, size_t);
static ssize_t (*next_write)(int, const void *, size_t);

static void *next(const char *name) { return dlsym((void *)-1L, name); }

static int number_of(const char *name) {
    const char *text = getenv(name);
    return text ? atoi(text) : 0;
}

static struct Asked asked(const char *kind, const char *at, const char *later) {
    struct Asked it = {-1, number_of(at), getenv(later) != 0};
    const char *name = getenv(kind);
    for (int each = 0; name && each < KINDS; each++)
        if (!strcmp(name, names[each])) it.kind = each;
    return it;
}

static int is_met(struct Asked it, int kind) {
    return it.kind == kind && it.at > 0 && (it.later ? counts[kind] >= it.at : counts[kind] == it.at);
}

// Counts a call, and says whether it fails.
static int fails(int kind) {
    if (!counting) return 0;
    counts[kind]++;
    if (!is_met(fault, kind)) return 0;
    *__errno_location() = error ? error : kind == ALLOCATION ? 12 : 5;
    return 1;
}

__attribute__((constructor)) static void begin(void) {
    fault = asked("FAULT_IN", "FAULT_AT", "FAULT_LATER");
    shortened = asked("SHORT_IN", "SHORT_AT", "SHORT_LATER");
    error = number_of("FAULT_ERROR");
    counting = 1;
}

__attribute__((destructor)) static void end(void) {
    counting = 0;
    if (!getenv("COUNT_TO")) return;
    char text[64];
    int length = 0;
    for (int kind = 0; kind < KINDS; kind++) {
        char digits[16];
        int left = counts[kind], many = 0;
        do digits[many++] = '0' + left % 10;
        while (left /= 10);
        while (many) text[length++] = digits[--many];
        text[length++] = kind == WRITE ? '\n' : ' ';
    }
    if (!next_write) next_write = next("write");
    next_write(number_of("COUNT_TO"), text, length);
}

void *malloc(size_t size) {
    if (!next_malloc) next_malloc = next("malloc");
    return fails(ALLOCATION) ? 0 : next_malloc(size);
}

void *realloc(void *old, size_t size) {
    if (!next_realloc) next_realloc = next("realloc");
    return fails(ALLOCATION) ? 0 : next_realloc(old, size);
}

ssize_t read(int from, void *into, size_t size) {
    if (!next_read) next_read = next("read");
    if (fails(READ)) return -1;
    return next_read(from, into, size > 1 && is_met(shortened, READ) ? 1 : size);
}

ssize_t write(int to, const void *from, size_t size) {
    if (!next_write) next_write = next("write");
    if (fails(WRITE)) return -1;
    return next_write(to, from, size > 1 && is_met(shortened, WRITE) ? 1 : size);
}
