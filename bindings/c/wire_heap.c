/* How libwire_c.a takes memory: three functions over malloc, realloc and free. They are in the archive beside the library; a program that
 * defines all three itself takes its own. Each block is freed by the call that took it. No header is included, so that a compiler without
 * a C library can make it. */
typedef __SIZE_TYPE__ size;

void *malloc(size length);
void *realloc(void *block, size length);
void free(void *block);

/* whether there is memory, and the block; where there is none, a pointer that nobody uses */
struct block {
    size is_there;
    void *at;
};

static char nothing;

static struct block block_of(void *at) {
    struct block block = {at != 0, at ? at : &nothing};
    return block;
}

struct block rattle_alloc(size length, size align) { return block_of(malloc(length ? length : align)); }

struct block rattle_realloc(void *block, size length, size new_length, size align) {
    (void)length;
    return block_of(realloc(block, new_length ? new_length : align));
}

void rattle_dealloc(void *block) { free(block); }
