/* Compares frames_small.h with the proved library, step by step. Its last line says how many steps were compared; a difference ends it.
 *
 * usage: exhaustive quick|long [ROUNDS]
 *
 * 1. Receiving, counted and plain. For each room, each sequence of bytes other than the sentinel, up to two longer than the room, over an
 *    alphabet; behind each of them a sentinel too. What either receiver keeps between two bytes depends only on the bytes since the last
 *    sentinel: so this is each stream of any length over that alphabet. Then each sequence of up to three bytes of any value.
 * 2. Sending, counted and plain: each message of up to 5 or 6 bytes over an alphabet, and of up to 2 bytes of any value, from a clean
 *    sender and another, the line ending at each byte.
 * 3. Random streams and messages of any sentinel, of lengths round 127, 128, 254, 255, 508 and 16383, changed and truncated. */
#include "frames.h"
#include "frames_small.h"
#include <stdio.h>
#include <stdlib.h>
#include <string.h>

static unsigned long long compared;
static void fail(const char *what) {
    printf("DIFFERS: %s\n", what);
    exit(1);
}

/* ---- receiving: [0] counted, [1] plain ---- */

static uint8_t ours[2][70000], theirs[2][70000];
struct pair {
    struct frames_small_receiver a[2];
    struct frames_receiver b[2];
    size_t room;
};
static void take(struct pair *p, uint8_t byte) {
    for (int plain = 0; plain < 2; plain++) {
        struct frames_small_event e = {9, 9, 9};
        struct frames_event f;
        uint8_t kind = plain ? frames_small_push_byte_plain(&p->a[1], ours[1], p->room, byte, &e)
                             : frames_small_push_byte(&p->a[0], ours[0], p->room, byte, &e);
        uint8_t want = plain ? frames_push_byte_plain(&p->b[1], theirs[1], p->room, byte, &f)
                             : frames_push_byte(&p->b[0], theirs[0], p->room, byte, &f);
        if (kind != want) fail("what a byte brought about");
        if (want == FRAMES_MORE && (e.stretch != 9 || e.start != 9 || e.length != 9)) fail("an event was set");
        if (want != FRAMES_MORE && e.stretch != f.stretch) fail("the length of a stretch");
        if (want == FRAMES_MESSAGE && (e.start != f.start || e.length != f.length ||
                                       memcmp(ours[plain] + e.start, theirs[plain] + f.start, e.length)))
            fail("a message");
        if (frames_begun(&p->b[plain]) != frames_small_begun(&p->a[plain])) fail("how much is begun");
        compared++;
    }
}
static struct pair anew(size_t room, uint8_t sentinel) {
    struct pair p;
    p.room = room;
    for (int plain = 0; plain < 2; plain++) {
        p.a[plain] = frames_small_new_receiver(sentinel);
        p.b[plain] = frames_receiver(sentinel);
    }
    return p;
}
static int is_new(const struct pair *p) {
    for (int plain = 0; plain < 2; plain++)
        if (p->a[plain].stretch || p->a[plain].decided || p->a[plain].left || p->a[plain].owes || p->a[plain].past ||
            p->b[plain].count || p->b[plain].past)
            return 0;
    return 1;
}
/* The pair has taken `depth` bytes. Since a sentinel may decode in place, the buffers are kept and put back. */
static void sequences(struct pair p, size_t depth, size_t most, const uint8_t *alphabet, size_t letters, uint8_t sentinel) {
    struct pair q = p;
    uint8_t kept[4][16];
    for (int i = 0; i < 2; i++) memcpy(kept[i], ours[i], 16), memcpy(kept[2 + i], theirs[i], 16);
    take(&q, sentinel);
    if (!is_new(&q)) fail("behind a sentinel a receiver isn't new");
    for (size_t k = 0;; k++) {
        for (int i = 0; i < 2; i++) memcpy(ours[i], kept[i], 16), memcpy(theirs[i], kept[2 + i], 16);
        if (depth == most || k == letters) return;
        q = p;
        take(&q, alphabet[k] ^ sentinel);
        sequences(q, depth + 1, most, alphabet, letters, sentinel);
    }
}

/* ---- sending ---- */

static uint8_t line[80000], frame[80000];
static size_t length, ends;
static bool put(void *context, uint8_t byte) {
    (void)context;
    if (length == ends) return false;
    line[length++] = byte;
    return true;
}
static void send(const uint8_t *m, size_t n, int clean, int plain, uint8_t sentinel, size_t cut) {
    struct frames_sender t = {(uint8_t)clean, sentinel};
    struct frames_written w = plain ? frames_send_plain(&t, m, n, frame, sizeof frame) : frames_send(&t, m, n, frame, sizeof frame);
    struct frames_small_sender s = frames_small_new_sender(sentinel);
    s.clean = clean;
    if (w.status != FRAMES_OK) fail("no room");
    ends = cut < w.length ? cut : (size_t)-1;
    length = 0;
    bool all = plain ? frames_small_send_plain(&s, put, 0, m, n) : frames_small_send(&s, put, 0, m, n);
    size_t want = cut < w.length ? cut : w.length;
    if (length != want || memcmp(line, frame, want)) fail("the bytes of a send");
    if (all != (cut >= w.length)) fail("whether all went out");
    if (s.clean != all || s.sentinel != sentinel) fail("what a sender keeps");
    compared++;
}
static void messages(uint8_t *m, size_t n, size_t most, const uint8_t *alphabet, size_t letters) {
    for (int clean = 0; clean < 2; clean++)
        for (int plain = 0; plain < 2; plain++)
            for (size_t cut = 0; cut <= n + 5; cut++) send(m, n, clean, plain, 0, cut);
    if (n == most) return;
    for (size_t i = 0; i < letters; i++) {
        m[n] = alphabet[i];
        messages(m, n + 1, most, alphabet, letters);
    }
}

/* ---- random ones ---- */

static uint8_t m[20000];
static void sums(size_t n) {
    if (frames_crc32(m, n) != frames_small_crc32(m, n)) fail("a sum");
    size_t room = n + (size_t)rand() % 6;
    memcpy(ours[0], m, n), memcpy(theirs[0], m, n);
    memset(ours[0] + n, 7, 8), memset(theirs[0] + n, 7, 8);
    struct frames_written w = frames_seal(theirs[0], room, n);
    size_t sealed = frames_small_seal(ours[0], room, n);
    if (sealed != w.length || memcmp(ours[0], theirs[0], n + 8)) fail("a seal");
    if (rand() % 2) ours[0][(size_t)rand() % (n + 4)] ^= (uint8_t)(1 + rand() % 255);
    for (size_t k = 0; k <= n + 4; k += n + 4 > 8 && k < n ? n : 1) {
        struct frames_written u = frames_unseal(ours[0], k);
        if (frames_small_unseal(ours[0], k) != (u.status == FRAMES_OK)) fail("whether it is sealed");
        compared++;
    }
}
static void round_of(void) {
    static const size_t sizes[] = {0, 1, 5, 126, 127, 128, 129, 252, 253, 254, 255, 256, 507, 508, 509, 762, 1016, 16383, 16384};
    size_t n = rand() % 3 ? (size_t)rand() % 40 : sizes[rand() % (rand() % 10 ? 17 : 19)];
    int kind = rand() % 4;
    uint8_t sentinel = (uint8_t)(rand() % 2 ? 0 : rand());
    for (size_t i = 0; i < n; i++)
        m[i] = (uint8_t)(kind == 0 ? rand() : kind == 1 ? 1 + rand() % 255 : kind == 2 ? rand() % 3 : rand() % 300 ? 1 + rand() % 255 : 0);
    send(m, n, rand() & 1, rand() & 1, sentinel, rand() % 4 ? (size_t)-1 : (size_t)rand() % (n + 4));
    sums(n);
    struct pair p = anew(rand() % 3 ? (size_t)rand() % 600 : (size_t)rand() % 20000, sentinel);
    for (int j = 0; j < 3; j++) {
        struct frames_sender t = {0, sentinel};
        struct frames_written w = rand() % 5 ? frames_send(&t, m, n, frame, sizeof frame) : frames_send_plain(&t, m, n, frame, sizeof frame);
        if (rand() % 3 == 0 && w.length) frame[(size_t)rand() % w.length] = (uint8_t)rand();
        if (rand() % 4 == 0) w.length = (size_t)rand() % (w.length + 1);
        for (size_t i = 0; i < w.length; i++) take(&p, frame[i]);
    }
}

/* A buffer that is shorter than what is begun, and null pointers: refused, and nothing changes. */
static void misuse(void) {
    struct frames_small_event e = {9, 9, 9};
    uint8_t buffer[8];
    struct frames_small_receiver r = frames_small_new_receiver(0), before;
    for (int i = 0; i < 5; i++) frames_small_push_byte(&r, buffer, 8, 7, &e);
    before = r;
    if (frames_small_push_byte(&r, buffer, 4, 7, &e) != FRAMES_SMALL_MISUSED || frames_small_push_byte(&r, 0, 8, 7, &e) != FRAMES_SMALL_MISUSED ||
        frames_small_push_byte(0, buffer, 8, 7, &e) != FRAMES_SMALL_MISUSED || frames_small_push_byte(&r, buffer, 8, 7, 0) != FRAMES_SMALL_MISUSED)
        fail("misuse isn't refused");
    if (memcmp(&r, &before, sizeof r) || e.length != 9) fail("misuse changed something");
    r = frames_small_new_receiver(0);
    if (frames_small_push_byte(&r, 0, 0, 7, &e) != FRAMES_SMALL_TOO_LONG) fail("a buffer of nothing");
}

int main(int argc, char **argv) {
    static const uint8_t few[] = {1, 2, 3, 4, 5, 128, 129, 255}, bytes[] = {0, 1, 2, 127, 128, 255};
    uint8_t all[256];
    int is_long = argc > 1 && !strcmp(argv[1], "long");
    unsigned long rounds = argc > 2 ? strtoul(argv[2], 0, 10) : is_long ? 20000 : 5000;
    size_t rooms = is_long ? 7 : 5;
    for (int i = 0; i < 256; i++) all[i] = (uint8_t)(i + 1);
    for (size_t room = 0; room <= rooms; room++)
        sequences(anew(room, 0), 0, room + 2, few, room < 6 ? sizeof few : 6, 0);
    sequences(anew(3, 255), 0, 5, few, sizeof few, 255);
    sequences(anew(4, 10), 0, 6, few, 6, 10);
    printf("receiving over an alphabet, rooms up to %zu: %llu steps\n", rooms, compared);
    for (size_t room = 0; room <= (is_long ? 4u : 3u); room++) sequences(anew(room, 0), 0, is_long ? 3 : 2, all, 255, 0);
    printf("receiving bytes of any value: %llu steps\n", compared);
    messages(m, 0, is_long ? 6 : 5, bytes, sizeof bytes);
    for (int i = 0; i < 256; i++) all[i] = (uint8_t)i;
    messages(m, 0, is_long ? 2 : 1, all, 256);
    printf("sending: %llu steps\n", compared);
    srand(7);
    misuse();
    for (unsigned long k = 0; k < rounds; k++) round_of();
    printf("%lu rounds of random ones: %llu steps, no difference\n", rounds, compared);
    return 0;
}
