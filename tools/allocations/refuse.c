// Loaded before a program: refuses the program's allocation whose number, from 1 on, stands in REFUSED, and says so on standard error.
// Only calls from the program's own code count, so none of those that the C library makes, as for a thread's stack.
// It needs no header, so that the compiler of the kit builds it alone.

typedef unsigned long size;

// A part of the program in memory, as ELF describes it.
struct part { unsigned kind, flags; size offset, address, physical, in_file, in_memory, alignment; };

enum { LOADED = 1, TABLE = 6, EXECUTABLE = 1, TABLE_AT = 3, TABLE_LENGTH = 5 };

extern size getauxval(size);
extern char *getenv(const char *);
extern long atol(const char *);
extern long write(int, const void *, size);
extern void *__libc_malloc(size);
extern void *__libc_realloc(void *, size);

static size code, end;
static long refused, made;

__attribute__((constructor)) static void begin(void) {
    const struct part *parts = (const struct part *)getauxval(TABLE_AT);
    size length = getauxval(TABLE_LENGTH), base = 0;
    for (size i = 0; i < length; i++)
        if (parts[i].kind == TABLE) base = (size)parts - parts[i].address;
    for (size i = 0; i < length; i++)
        if (parts[i].kind == LOADED && (parts[i].flags & EXECUTABLE)) {
            code = base + parts[i].address;
            end = code + parts[i].in_memory;
        }
    refused = getenv("REFUSED") ? atol(getenv("REFUSED")) : 0;
}

static int is_refused(void *caller) {
    static const char said[] = "an allocation was refused\n";
    if ((size)caller < code || (size)caller >= end) return 0;
    if (__atomic_add_fetch(&made, 1, __ATOMIC_SEQ_CST) != refused) return 0;
    write(2, said, sizeof said - 1);
    return 1;
}

void *malloc(size bytes) { return is_refused(__builtin_return_address(0)) ? 0 : __libc_malloc(bytes); }

void *realloc(void *kept, size bytes) { return is_refused(__builtin_return_address(0)) ? 0 : __libc_realloc(kept, bytes); }
