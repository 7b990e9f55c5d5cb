/* The heap of the module for WebAssembly: what the kit's libc/c/heap.c is over malloc, for one thread, over the memory behind
 * the stack. Each block is of a size class, four classes from one power of two to the next, behind a header of 16 bytes. A block
 * that is given back goes on the list of its class, and is taken from there first. */
typedef unsigned long word;

struct header { word class, size; };
struct tried { word ok; void *at; };

enum { ALIGN = 16, PAGE = 65536, GROWN_AT_ONCE = 64, CLASSES = 256 };

extern unsigned char __heap_base;
static word next, end;       /* what no block has had yet */
static void *lists[CLASSES]; /* the blocks that were given back, each with the next one in it */
static unsigned char nothing[ALIGN] __attribute__((aligned(ALIGN))); /* where blocks of no bytes lie */

static struct header *header_of(void *at) { return (struct header *)at - 1; }

/* The class of a size, and the largest size of that class, a multiple of 16. */
static struct header class_of(word size) {
    if (size < ALIGN) size = ALIGN;
    word power = 63 - __builtin_clzl(size);
    word step = (word)1 << (power - 2);
    word most = (size + step - 1) & ~(step - 1);
    power = 63 - __builtin_clzl(most);
    struct header found = {power * 4 + ((most >> (power - 2)) & 3), (most + ALIGN - 1) & ~(word)(ALIGN - 1)};
    return found;
}

/* Makes room for so many bytes more, where the host gives it. */
static int has_room(word size) {
    if (!next) {
        next = ((word)&__heap_base + ALIGN - 1) & ~(word)(ALIGN - 1);
        end = __builtin_wasm_memory_size(0) * PAGE;
    }
    if (size <= end - next) return 1;
    word pages = (size - (end - next) + PAGE - 1) / PAGE;
    word more = pages < GROWN_AT_ONCE ? GROWN_AT_ONCE : pages;
    if (__builtin_wasm_memory_grow(0, more) == (word)-1 && (more == pages || __builtin_wasm_memory_grow(0, pages) == (word)-1)) return 0;
    end = __builtin_wasm_memory_size(0) * PAGE;
    return 1;
}

static void *block(word size) {
    if (size >> 40) return 0;
    struct header header = class_of(size);
    void *at = lists[header.class];
    if (at) {
        lists[header.class] = *(void **)at;
        return at;
    }
    if (!has_room(sizeof header + header.size)) return 0;
    *(struct header *)next = header;
    at = (struct header *)next + 1;
    next += sizeof header + header.size;
    return at;
}

struct tried rattle_alloc(word size, word align) {
    void *at = size ? block(size) : nothing;
    struct tried tried = {at != 0, at};
    return tried;
}

void rattle_dealloc(void *at) {
    if (at == nothing) return;
    word class = header_of(at)->class;
    *(void **)at = lists[class];
    lists[class] = at;
}

struct tried rattle_realloc(void *at, word kept, word size, word align) {
    if (at != nothing && size && class_of(size).class == header_of(at)->class) {
        struct tried same = {1, at};
        return same;
    }
    struct tried tried = rattle_alloc(size, align);
    if (tried.ok) {
        __builtin_memcpy(tried.at, at, kept < size ? kept : size);
        rattle_dealloc(at);
    }
    return tried;
}

/* For the host: room for what it hands over, or 0 where there is none; and the room given back. */
__attribute__((export_name("take"))) void *take(word size) { return rattle_alloc(size, ALIGN).at; }
__attribute__((export_name("give_back"))) void give_back(void *at) { rattle_dealloc(at); }
