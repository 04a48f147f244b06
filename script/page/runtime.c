/* The part of a C library that the page's WebAssembly needs: malloc, realloc and free, the three calls by which the library
   requests memory, and a shift that the compiler calls. The kit has no headers of C.

   A block has 32, 64, 128 .. bytes. Its first 16 bytes are its head; malloc returns the address after them. A freed block
   is added to the list of its size, and malloc takes it from there. Memory is never returned to the browser. */
typedef __SIZE_TYPE__ size_t;
typedef __UINTPTR_TYPE__ uintptr_t;
typedef __UINT32_TYPE__ uint32_t;
typedef __UINT64_TYPE__ uint64_t;

enum { HEAD = 16, LEAST = 5, SIZES = 33, PAGE = 65536 };

struct block {
    uint64_t size;      /* the block has 2 to the power of this number of bytes, including its head */
    struct block *next; /* in the list of freed blocks */
};

extern unsigned char __heap_base;
static struct block *freed[SIZES];
static uintptr_t fresh, end; /* the memory that has not been in any block yet */

/* A new block of so many bytes, for which memory grows if needed; 0 if it cannot grow. */
static struct block *grown(size_t length) {
    if (fresh == 0) {
        fresh = ((uintptr_t)&__heap_base + 15) & ~(uintptr_t)15;
        end = (uintptr_t)__builtin_wasm_memory_size(0) * PAGE;
    }
    if (end - fresh < length) {
        size_t pages = (length - (end - fresh) + PAGE - 1) / PAGE;
        /* (-1 of 32 bits if it cannot grow: wasm-opt makes addresses 32 bits wide) */
        if ((uint32_t)__builtin_wasm_memory_grow(0, pages) == (uint32_t)-1) return 0;
        end += pages * PAGE;
    }
    struct block *block = (struct block *)fresh;
    fresh += length;
    return block;
}

void *malloc(size_t length) {
    uint64_t size = LEAST;
    if (length > (size_t)1 << 31) return 0;
    while (((size_t)1 << size) < length + HEAD) size++;
    struct block *block = freed[size];
    if (block != 0) freed[size] = block->next;
    else if ((block = grown((size_t)1 << size)) == 0) return 0;
    block->size = size;
    return (char *)block + HEAD;
}

void free(void *at) {
    if (at == 0) return;
    struct block *block = (struct block *)((char *)at - HEAD);
    block->next = freed[block->size];
    freed[block->size] = block;
}

static void *resized(void *at, size_t length) {
    struct block *block = (struct block *)((char *)at - HEAD);
    size_t capacity = ((size_t)1 << block->size) - HEAD;
    if (length <= capacity) return at;
    void *larger = malloc(length);
    if (larger == 0) return 0;
    __builtin_memcpy(larger, at, capacity);
    free(at);
    return larger;
}

/* As in c/heap.c of the kit: whether there is memory, and its address, which is never 0. */
struct tried {
    uint64_t ok;
    void *at;
};

static struct tried tried(void *at) {
    static unsigned char nothing;
    return (struct tried){at != 0, at != 0 ? at : (void *)&nothing};
}

struct tried rattle_alloc(size_t length, size_t align) {
    return tried(malloc(length != 0 ? length : align));
}

struct tried rattle_realloc(void *at, size_t old_length, size_t length, size_t align) {
    (void)old_length;
    return tried(resized(at, length != 0 ? length : align));
}

void rattle_dealloc(void *at) {
    free(at);
}

/* The compiler calls this for `value >> count` of 128 bits, where count is below 128. */
unsigned __int128 __lshrti3(unsigned __int128 value, int count) {
    uint64_t low = (uint64_t)value, high = (uint64_t)(value >> 64);
    if (count >= 64) low = high >> (count - 64), high = 0;
    else if (count > 0) low = low >> count | high << (64 - count), high >>= count;
    return (unsigned __int128)high << 64 | low;
}
