// What the module calls of C: a heap in its own memory, and what compiled code calls by name. It calls nothing of the page,
// which calls it (answer.js). Places are handed over as numbers of 32 bits, which is what they have behind the lowering
// (tools/page/lower). Nothing here is proved; tools/test-page tries it.
typedef unsigned long size_t;
typedef unsigned char byte;
#define FOR_PAGE(name) __attribute__((export_name(#name)))

// The proved function, of the crate mungo_page: a slice is a place and a length.
size_t page_answer(const byte *words, size_t count, const byte *files, size_t size, byte *room, size_t space);
FOR_PAGE(answer)
unsigned answer(unsigned words, unsigned count, unsigned files, unsigned size, unsigned room, unsigned space) {
    return page_answer((byte *)(size_t)words, count, (byte *)(size_t)files, size, (byte *)(size_t)room, space);
}

// The heap. A block has 32 bytes, or twice as many, and so on, and before what is handed out stand 16 bytes that tell
// its class. What is given back waits in a list of its class. Where there is nothing the memory grows by 4 MiB or more.
extern byte __heap_base;
static byte *next = 0, *limit = 0;
static void *waiting[64];
#define PAGE 65536
static int class_of(size_t count) { return count <= 16 ? 5 : 64 - __builtin_clzl(count + 15); }
static int *class_at(void *block) { return (int *)((byte *)block - 16); }
static _Bool grows(size_t count) {
    size_t pages = (count + PAGE - 1) / PAGE;
    if (pages < 64) pages = 64;
    // The lowering leaves 32 bits of the answer, which is -1 where the memory can't grow.
    if ((int)__builtin_wasm_memory_grow(0, pages) == -1) return 0;
    limit += pages * PAGE;
    return 1;
}
static void *take(size_t count) {
    if (count > 1ul << 31) return 0;
    int class = class_of(count);
    void *block = waiting[class];
    if (block) {
        waiting[class] = *(void **)block;
        return block;
    }
    if (!next) {
        next = (byte *)(((size_t)&__heap_base + 15) & ~15ul);
        limit = (byte *)(__builtin_wasm_memory_size(0) * PAGE);
    }
    size_t whole = 1ul << class, left = limit - next;
    if (left < whole && !grows(whole - left)) return 0;
    block = next + 16;
    next += whole;
    *class_at(block) = class;
    return block;
}
static void give(void *block) {
    int class = *class_at(block);
    *(void **)block = waiting[class];
    waiting[class] = block;
}
struct tried { size_t is_there; void *block; };
static struct tried tried(void *block) {
    static byte nothing[16];
    return block ? (struct tried){1, block} : (struct tried){0, nothing};
}
struct tried rattle_alloc(size_t count, size_t alignment) { return tried(take(count ? count : alignment)); }
struct tried rattle_realloc(void *block, size_t kept, size_t count, size_t alignment) {
    if (!count) count = alignment;
    int class = *class_at(block);
    if (class_of(count) == class) return tried(block);
    void *other = take(count);
    if (!other) return tried(0);
    size_t room = (1ul << class) - 16;
    if (kept > count) kept = count;
    __builtin_memcpy(other, block, kept < room ? kept : room);
    give(block);
    return tried(other);
}
void rattle_dealloc(void *block) { give(block); }

// The heap for the page, and for its test.
FOR_PAGE(take) unsigned page_take(unsigned count) { return (unsigned)(size_t)take(count); }
FOR_PAGE(retake) unsigned page_retake(unsigned block, unsigned kept, unsigned count) {
    struct tried other = rattle_realloc((void *)(size_t)block, kept, count, 16);
    return other.is_there ? (unsigned)(size_t)other.block : 0;
}
FOR_PAGE(give) void page_give(unsigned block) { give((void *)(size_t)block); }

// What compiled code calls by name: here instructions of the machine.
void *memcpy(void *to, const void *from, size_t count) { __builtin_memcpy(to, from, count); return to; }
void *memmove(void *to, const void *from, size_t count) { __builtin_memmove(to, from, count); return to; }
void *memset(void *to, int value, size_t count) { __builtin_memset(to, value, count); return to; }
