/* libFuzzer over frames_small.h beside the proved library: the input is a choice and a stream, or a message. Buffers end, or begin, at a
 * page that can't be touched, so that a step past one is seen in the library too, which no sanitizer instruments.
 *
 * clang -fsanitize=fuzzer,address,undefined -I../.. fuzz.c LIBRARY; `.ci/small --long` runs it for five minutes. */
#define _GNU_SOURCE
#include "frames.h"
#include "frames_small.h"
#include <stdio.h>
#include <stdlib.h>
#include <string.h>
#include <sys/mman.h>

enum { PAGE = 4096, PAGES = 24 };
static uint8_t *area[4];
static void fail(const char *what) {
    fprintf(stderr, "DIFFERS: %s\n", what);
    abort();
}
static uint8_t *room_of(int k, size_t n, int at_end) { return at_end ? area[k] + PAGES * PAGE - n : area[k]; }

int LLVMFuzzerInitialize(int *count, char ***words) {
    (void)count;
    (void)words;
    for (int k = 0; k < 4; k++) {
        uint8_t *whole = mmap(0, (PAGES + 2) * PAGE, PROT_NONE, MAP_PRIVATE | MAP_ANONYMOUS, -1, 0);
        mprotect(whole + PAGE, PAGES * PAGE, PROT_READ | PROT_WRITE);
        area[k] = whole + PAGE;
    }
    return 0;
}

static void receive(const uint8_t *bytes, size_t n, unsigned choice, uint8_t sentinel, size_t room) {
    int plain = choice & 1;
    uint8_t *a = room_of(0, room, choice & 2), *b = room_of(1, room, choice & 2);
    struct frames_small_receiver r = frames_small_new_receiver(sentinel);
    struct frames_receiver q = frames_receiver(sentinel);
    for (size_t i = 0; i < n; i++) {
        struct frames_small_event e = {0, 0, 0};
        struct frames_event f;
        uint8_t kind = plain ? frames_small_push_byte_plain(&r, a, room, bytes[i], &e) : frames_small_push_byte(&r, a, room, bytes[i], &e);
        uint8_t want = plain ? frames_push_byte_plain(&q, b, room, bytes[i], &f) : frames_push_byte(&q, b, room, bytes[i], &f);
        if (kind != want) fail("what a byte brought about");
        if (kind != FRAMES_SMALL_MORE && e.stretch != f.stretch) fail("a stretch");
        if (kind == FRAMES_SMALL_MESSAGE && (e.start != f.start || e.length != f.length || memcmp(a + e.start, b + f.start, e.length)))
            fail("a message");
        if (frames_small_begun(&r) != frames_begun(&q)) fail("how much is begun");
    }
}

struct sink {
    uint8_t *out;
    size_t n, most;
};
static bool put(void *line, uint8_t byte) {
    struct sink *s = line;
    if (s->n == s->most) return false;
    s->out[s->n++] = byte;
    return true;
}
static void send(const uint8_t *bytes, size_t n, unsigned choice, uint8_t sentinel, size_t less) {
    int plain = choice & 1;
    uint8_t *message = room_of(0, n, choice & 2);
    memcpy(message, bytes, n);
    struct frames_small_sender s = frames_small_new_sender(sentinel);
    struct frames_sender t = {(uint8_t)(choice >> 2 & 1), sentinel};
    s.clean = t.clean;
    static uint8_t line[PAGES * PAGE * 2], frame[PAGES * PAGE * 2];
    struct frames_written w = plain ? frames_send_plain(&t, message, n, frame, sizeof frame) : frames_send(&t, message, n, frame, sizeof frame);
    struct sink sink = {line, 0, less < w.length ? w.length - less : 0};
    bool all = plain ? frames_small_send_plain(&s, put, &sink, message, n) : frames_small_send(&s, put, &sink, message, n);
    if (w.status != FRAMES_OK || all != (less == 0) || s.clean != all) fail("whether all went out");
    if (sink.n != sink.most || memcmp(line, frame, sink.n)) fail("the bytes of a send");
    if (frames_crc32(message, n) != frames_small_crc32(message, n)) fail("a sum");
    uint8_t *a = room_of(1, n, 1), *b = room_of(2, n, 1);
    memcpy(a, message, n), memcpy(b, message, n);
    size_t size = sentinel, sealed = frames_small_seal(a, n, size);
    if (sealed != frames_seal(b, n, size).length || memcmp(a, b, n)) fail("a seal");
    for (size_t k = 0; k <= n; k += n > 40 ? n / 8 : 1)
        if (frames_small_unseal(a, k) != (frames_unseal(b, k).status == FRAMES_OK)) fail("whether it is sealed");
}

int LLVMFuzzerTestOneInput(const uint8_t *data, size_t size) {
    if (size < 4 || size > 16000) return 0;
    if (data[0] & 128)
        receive(data + 4, size - 4, data[0], data[1], data[2] + (data[0] & 64 ? 32u * data[3] : 0u));
    else
        send(data + 4, size - 4, data[0], data[1], data[2] & 3);
    return 0;
}
