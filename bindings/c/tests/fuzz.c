/* Compares the library with the oracle on random bytes. usage: fuzz [ROUNDS [SEED]] */
#include "frames.h"
#include "oracle.h"
#include <stdio.h>
#include <stdlib.h>

static uint64_t state;
static uint32_t next(void) {
    state ^= state << 13;
    state ^= state >> 7;
    state ^= state << 17;
    return (uint32_t)(state >> 32);
}
static uint32_t below(uint32_t n) { return next() % n; }

#define MOST 1400
static uint64_t round_number, checks;
#define CHECK(what) \
    do { \
        checks++; \
        if (!(what)) { \
            printf("round %llu, %s:%d: %s\n", (unsigned long long)round_number, __FILE__, __LINE__, #what); \
            exit(1); \
        } \
    } while (0)

/* Random bytes of one of several kinds: any, mostly zeros, mostly long runs, mostly small codes, frames. */
static size_t some_bytes(uint8_t *p, size_t most) {
    static const size_t sizes[] = {0, 1, 2, 3, 8, 40, 253, 254, 255, 256, 300, 508, 509, 510, 600, 1000};
    size_t n = below(3) ? below(24) : sizes[below(16)];
    if (n > most)
        n = most;
    unsigned kind = below(6);
    for (size_t i = 0; i < n; i++)
        switch (kind) {
        case 0: p[i] = (uint8_t)next(); break;
        case 1: p[i] = below(4) ? 0 : (uint8_t)next(); break;
        case 2: p[i] = below(200) ? (uint8_t)(1 + below(255)) : 0; break;
        case 3: p[i] = (uint8_t)below(5); break;
        case 4: p[i] = below(3) ? (uint8_t)(1 + below(255)) : 255; break;
        default: p[i] = (uint8_t)(1 + below(3)); break;
        }
    return n;
}

/* Exactly so many bytes on the heap, so that a tool sees a step past them. */
static uint8_t *exact(const uint8_t *p, size_t n) {
    uint8_t *q = malloc(n ? n : 1);
    if (n)
        memcpy(q, p, n);
    return q;
}

static void mask(uint8_t *p, size_t n, uint8_t s) {
    for (size_t i = 0; i < n; i++)
        p[i] ^= s;
}

static void encoding(void) {
    uint8_t m[MOST], want[2 * MOST];
    size_t n = some_bytes(m, MOST), w = oracle_write(m, n, want);
    uint8_t s = below(2) ? 0 : (uint8_t)next();
    uint8_t *source = exact(m, n);
    CHECK(frames_encoded_length(source, n) == w);
    CHECK(frames_most_encoded_length(n) >= w);
    for (size_t less = 0; less < 3; less++) {
        if (w < less)
            continue;
        size_t room = w - less + (less == 0 ? below(3) : 0);
        uint8_t *dest = malloc(room ? room : 1);
        memset(dest, 0xA5, room);
        struct frames_written r = s ? frames_encode_with_sentinel(source, n, dest, room, s) : frames_encode(source, n, dest, room);
        if (less == 0) {
            CHECK(r.status == FRAMES_OK && r.length == w);
            mask(dest, w, s);
            CHECK(memcmp(dest, want, w) == 0);
        } else {
            CHECK(r.status == FRAMES_NO_ROOM && r.length == 0);
            for (size_t i = 0; i < room; i++)
                CHECK(dest[i] == 0xA5);
        }
        free(dest);
    }
    /* a send, plain and counted: the counted one is that of the message's length, as postcard spells it, and its bytes */
    for (int counted = 0; counted < 2; counted++) {
        uint8_t spelled[MOST + 10];
        size_t size = counted ? oracle_count(n, spelled) : 0;
        memcpy(spelled + size, m, n);
        w = oracle_write(spelled, size + n, want);
        struct frames_sender sender = frames_sender(s);
        for (int clean = 0; clean < 2; clean++) {
            size_t whole = w + 1 + (clean ? 0 : 1);
            size_t room = below(8) ? whole - below(2) : below((uint32_t)whole);
            uint8_t *dest = malloc(room ? room : 1);
            memset(dest, 0xA5, room);
            struct frames_written r = counted ? frames_send(&sender, source, n, dest, room) : frames_send_plain(&sender, source, n, dest, room);
            if (room < whole) {
                CHECK(r.status == FRAMES_NO_ROOM && r.length == 0 && sender.clean == clean);
                for (size_t i = 0; i < room; i++)
                    CHECK(dest[i] == 0xA5);
            } else {
                CHECK(r.status == FRAMES_OK && r.length == whole && sender.clean == 0);
                uint8_t *frame = dest + (clean ? 0 : 1);
                CHECK(clean || dest[0] == s);
                mask(frame, w, s);
                CHECK(memcmp(frame, want, w) == 0 && frame[w] == s);
            }
            free(dest);
            frames_sent(&sender);
        }
    }
    free(source);
}

static size_t before(const uint8_t *p, size_t n, uint8_t s) {
    size_t i = 0;
    while (i < n && p[i] != s)
        i++;
    return i;
}

static bool overwritten(const uint8_t *dest, const uint8_t *old, size_t room, struct oracle_message m) {
    for (size_t i = 0; i < room; i++)
        if (dest[i] != (i < m.length ? m.bytes[i] : old[i]))
            return false;
    return true;
}

static void decoding(void) {
    uint8_t p[MOST], plain[MOST], out[MOST], old[MOST];
    size_t n = some_bytes(p, MOST / 2);
    if (below(2)) { /* a frame, perhaps with something changed, behind zeros */
        uint8_t f[MOST];
        size_t w = oracle_write(p, n, f), lead = below(3);
        memset(p, 0, lead);
        memcpy(p + lead, f, w);
        n = lead + w;
        if (below(2) && n)
            p[below((uint32_t)n)] = (uint8_t)next();
        if (below(2))
            p[n++] = 0;
    }
    uint8_t *source = exact(p, n);
    for (int which = 0; which < 2; which++) {
        uint8_t s = which ? (uint8_t)next() : 0;
        size_t lead = 0;
        if (!which)
            while (lead < n && source[lead] == 0)
                lead++;
        size_t size = before(source + lead, n - lead, s);
        memcpy(plain, source + lead, size);
        mask(plain, size, s);
        struct oracle_message m = oracle_read(plain, size, out);
        size_t room = below(3) ? m.length + below(3) : below((uint32_t)m.length + 1);
        if (below(8) == 0)
            room += 300;
        uint8_t *dest = malloc(room ? room : 1);
        for (size_t i = 0; i < room; i++)
            dest[i] = old[i] = (uint8_t)next();
        if (!which) {
            struct frames_read r = frames_decode(source, n, dest, room);
            if (size == 0)
                CHECK(r.status == FRAMES_EMPTY);
            else if (m.length > room)
                CHECK(r.status == FRAMES_NO_ROOM);
            else if (!m.frame)
                CHECK(r.status == FRAMES_INVALID && r.length == m.length);
            else
                CHECK(r.status == FRAMES_OK && r.length == m.length && r.used == (lead + size < n ? lead + size + 1 : n));
        } else {
            struct frames_written r = frames_decode_with_sentinel(source, n, dest, room, s);
            if (size == 0)
                CHECK(r.status == FRAMES_OK && r.length == 0);
            else if (!m.frame)
                CHECK(r.status == FRAMES_INVALID && r.length == m.length);
            else if (m.length > room)
                CHECK(r.status == FRAMES_NO_ROOM);
            else
                CHECK(r.status == FRAMES_OK && r.length == m.length);
        }
        CHECK(overwritten(dest, old, room, m));
        free(dest);
        /* in place */
        size = before(source, n, s);
        memcpy(plain, source, size);
        mask(plain, size, s);
        m = oracle_read(plain, size, out);
        uint8_t *buffer = exact(source, n);
        struct frames_read r = frames_decode_in_place(buffer, n, s);
        if (size == 0)
            CHECK(r.status == FRAMES_OK && r.used == 0 && r.length == 0);
        else if (!m.frame)
            CHECK(r.status == FRAMES_INVALID && r.length == m.length);
        else
            CHECK(r.status == FRAMES_OK && r.used == size && r.length == m.length);
        CHECK(overwritten(buffer, source, n, m));
        free(buffer);
    }
    free(source);
}

/* A push of a piece, as it is or byte by byte. */
static struct frames_event push(struct frames_receiver *r, uint8_t *buffer, size_t limit, const uint8_t *piece, size_t length,
                                bool counted, bool by_bytes) {
    if (!by_bytes)
        return counted ? frames_push(r, buffer, limit, piece, length) : frames_push_plain(r, buffer, limit, piece, length);
    struct frames_event e;
    memset(&e, 0xA5, sizeof e);
    for (size_t i = 0; i < length; i++) {
        uint8_t kind = counted ? frames_push_byte(r, buffer, limit, piece[i], &e) : frames_push_byte_plain(r, buffer, limit, piece[i], &e);
        if (kind != FRAMES_MORE) {
            CHECK(e.kind == kind && e.used == 1);
            e.used = i + 1;
            return e;
        }
        CHECK(e.kind == 0xA5 && e.length == (size_t)0xA5A5A5A5A5A5A5A5u);
    }
    struct frames_event none = {length, 0, 0, 0, FRAMES_MORE};
    return none;
}

static void receiving(void) {
    static uint8_t line[2 * MOST], plain[2 * MOST], out[2 * MOST], stretch[2 * MOST];
    uint8_t s = below(2) ? 0 : (uint8_t)next();
    bool counted = below(2), by_bytes = below(2);
    size_t n = 0;
    while (n < MOST / 2 && below(6)) {
        uint8_t p[MOST + 10], f[2 * MOST];
        size_t size = some_bytes(p, 60 + 300 * (below(4) == 0));
        if (counted && below(5)) { /* most are counted messages, some with other lengths or bytes behind */
            uint8_t q[MOST];
            size_t c = oracle_count(below(6) ? size : below(300), q);
            memcpy(q + c, p, size);
            memcpy(p, q, size += c);
        }
        size_t w = below(3) ? oracle_write(p, size, f) : (memcpy(f, p, size), size);
        if (n + w + 2 > MOST)
            break;
        mask(f, w, s);
        if (w && below(4) == 0)
            f[below((uint32_t)w)] = (uint8_t)next();
        if (w && below(6) == 0)
            w -= below((uint32_t)w);
        memcpy(line + n, f, w);
        n += w;
        if (below(8))
            line[n++] = s;
    }
    size_t limit = below(4) ? below(40) : below(400);
    uint8_t *buffer = malloc(limit ? limit : 1);
    struct frames_receiver receiver = frames_receiver(s);
    size_t at = 0, count = 0;
    bool past = false;
    while (at < n) { /* a piece, and what it brings */
        size_t length = below(3) ? below(20) : below(400);
        if (length > n - at)
            length = n - at;
        uint8_t *piece = exact(line + at, length);
        size_t used = 0;
        for (;;) {
            struct frames_event e = push(&receiver, buffer, limit, piece + used, length - used, counted, by_bytes);
            size_t step = 0;
            unsigned kind = FRAMES_MORE;
            struct oracle_message m = {false, 0, out};
            size_t size = 0;
            while (used + step < length && kind == FRAMES_MORE) {
                uint8_t b = piece[used + step++];
                if (b == s) {
                    if (!past && count > 0) {
                        memcpy(plain, stretch, count);
                        m = oracle_read(plain, count, out);
                        kind = m.frame && (!counted || oracle_counted(&m)) ? FRAMES_MESSAGE : FRAMES_DAMAGED;
                        size = count;
                    }
                    past = false;
                    count = 0;
                } else if (past) {
                } else if (count == limit) {
                    past = true;
                    count = 0;
                    kind = FRAMES_TOO_LONG;
                    size = limit;
                } else {
                    stretch[count++] = b ^ s;
                }
            }
            CHECK(e.kind == kind && e.used == step && e.stretch == size);
            CHECK(e.length == (kind == FRAMES_MESSAGE ? m.length : 0));
            CHECK(kind != FRAMES_MESSAGE || (e.start + e.length <= limit && memcmp(buffer + e.start, m.bytes, m.length) == 0));
            CHECK(kind != FRAMES_MESSAGE || counted || e.start == 0);
            CHECK(frames_begun(&receiver) == count);
            used += step;
            if (kind == FRAMES_MORE)
                break;
        }
        CHECK(used == length);
        free(piece);
        at += length;
        if (below(40) == 0) { /* the line hangs up, and another begins */
            CHECK(frames_finish(&receiver) == (!past && count > 0));
            past = false;
            count = 0;
        }
    }
    CHECK(frames_finish(&receiver) == (!past && count > 0));
    free(buffer);
}

/* CRC-32 bit by bit */
static void summing(void) {
    uint8_t p[MOST];
    size_t n = some_bytes(p, 300);
    uint32_t sum = 0xFFFFFFFFu;
    for (size_t i = 0; i < n; i++) {
        sum ^= p[i];
        for (int k = 0; k < 8; k++)
            sum = sum >> 1 ^ (sum & 1 ? 0xEDB88320u : 0);
    }
    CHECK(frames_crc32(p, n) == ~sum);
    size_t room = n + below(8);
    uint8_t *buffer = malloc(room ? room : 1);
    memset(buffer, 0xA5, room);
    memcpy(buffer, p, n);
    struct frames_written r = frames_seal(buffer, room, n);
    CHECK(r.status == (room < n + 4 ? FRAMES_NO_ROOM : FRAMES_OK) && r.length == (room < n + 4 ? 0 : n + 4));
    CHECK(memcmp(buffer, p, n) == 0);
    for (size_t i = n; i < room; i++)
        CHECK(buffer[i] == (room >= n + 4 && i < n + 4 ? (uint8_t)(~sum >> 8 * (i - n)) : 0xA5));
    if (r.status == FRAMES_OK) {
        struct frames_written u = frames_unseal(buffer, r.length);
        CHECK(u.status == FRAMES_OK && u.length == n);
        buffer[below((uint32_t)r.length)] ^= (uint8_t)(1 << below(8));
        CHECK(frames_unseal(buffer, r.length).status == FRAMES_INVALID);
    }
    CHECK(frames_seal(buffer, room, SIZE_MAX - below(9)).status == FRAMES_NO_ROOM);
    free(buffer);
    CHECK(frames_unseal(p, below(4)).status == FRAMES_INVALID);
}

/* Null pointers, and receivers that hold anything: no call steps out of its buffers, and each answers what the header says. */
static void misusing(void) {
    uint8_t b[8] = {2, 1, 0}, *buffer = calloc(8, 1);
    struct frames_receiver r;
    uint8_t *raw = (uint8_t *)&r;
    for (size_t i = 0; i < sizeof r; i++)
        raw[i] = (uint8_t)next();
    r.count = below(3) ? below(20) : r.count;
    struct frames_receiver old = r;
    struct frames_event e = frames_push(&r, buffer, 8, b, 8);
    if (old.count > 8)
        CHECK(e.kind == FRAMES_MISUSED && e.used == 0 && r.count == old.count && r.past == old.past);
    else
        CHECK(e.kind <= FRAMES_TOO_LONG && e.used > 0 && e.used <= 8 && e.length <= 8);
    CHECK(r.sentinel == old.sentinel);
    struct frames_receiver again = old;
    struct frames_event told = {9, 9, 9, 9, 9};
    uint8_t kind = below(2) ? frames_push_byte(&again, buffer, 8, b[0], &told) : frames_push_byte_plain(&again, buffer, 8, b[0], &told);
    if (old.count > 8)
        CHECK(kind == FRAMES_MISUSED && told.kind == 9 && again.count == old.count && again.past == old.past);
    else
        CHECK(kind <= FRAMES_TOO_LONG && again.count <= 8 && (kind == FRAMES_MORE || (told.kind == kind && told.start + told.length <= 8)));
    frames_finish(&r);
    CHECK(frames_begun(&r) == 0 && r.past == 0);
    uint8_t hi[5] = {4, 2, 'h', 'i', 0}; /* behind the end it is as new, whatever it held */
    mask(hi, 5, r.sentinel);
    e = frames_push(&r, buffer, 8, hi, 5);
    CHECK(e.kind == FRAMES_MESSAGE && e.used == 5 && e.stretch == 4 && e.start == 1 && e.length == 2 && memcmp(buffer + 1, "hi", 2) == 0);
    r = frames_receiver(0);
    CHECK(frames_push(NULL, buffer, 8, b, 1).kind == FRAMES_MISUSED);
    /* a read that failed, whose -1 is handed on */
    CHECK(frames_push(&r, buffer, 8, b, (size_t)-1).kind == FRAMES_MISUSED && frames_push_plain(&r, buffer, 8, b, (size_t)-1).kind == FRAMES_MISUSED);
    CHECK(frames_begun(&r) == 0);
    CHECK(frames_push(&r, NULL, 8, b, 1).kind == FRAMES_MISUSED && frames_push(&r, buffer, 8, NULL, 1).kind == FRAMES_MISUSED);
    CHECK(frames_push(&r, buffer, 8, NULL, 0).kind == FRAMES_MORE && frames_push(&r, NULL, 0, NULL, 0).kind == FRAMES_MORE);
    CHECK(frames_push(&r, NULL, 0, b, 3).kind == FRAMES_TOO_LONG);
    CHECK(frames_encode(NULL, 1, buffer, 8).status == FRAMES_NULL && frames_encode(b, 1, NULL, 8).status == FRAMES_NULL);
    CHECK(frames_encode(NULL, 0, buffer, 8).status == FRAMES_OK && frames_encode(NULL, 0, NULL, 0).status == FRAMES_NO_ROOM);
    CHECK(frames_encode_with_sentinel(NULL, 1, buffer, 8, 3).status == FRAMES_NULL);
    CHECK(frames_decode(NULL, 0, NULL, 0).status == FRAMES_EMPTY && frames_decode(NULL, 2, buffer, 8).status == FRAMES_NULL);
    CHECK(frames_decode_with_sentinel(NULL, 0, NULL, 0, 7).status == FRAMES_OK);
    CHECK(frames_decode_in_place(NULL, 0, 7).status == FRAMES_OK && frames_decode_in_place(NULL, 1, 7).status == FRAMES_NULL);
    CHECK(frames_push_plain(NULL, buffer, 8, b, 1).kind == FRAMES_MISUSED && frames_push_plain(&r, NULL, 8, b, 1).kind == FRAMES_MISUSED);
    CHECK(frames_push_byte(NULL, buffer, 8, 1, &told) == FRAMES_MISUSED && frames_push_byte(&r, NULL, 8, 1, &told) == FRAMES_MISUSED);
    CHECK(frames_push_byte(&r, buffer, 8, 1, NULL) == FRAMES_MISUSED && frames_push_byte_plain(&r, buffer, 8, 1, NULL) == FRAMES_MISUSED);
    CHECK(frames_send_plain(NULL, b, 1, buffer, 8).status == FRAMES_NULL && frames_send_plain(&(struct frames_sender){0, 0}, NULL, 1, buffer, 8).status == FRAMES_NULL);
    CHECK(frames_send(NULL, b, 1, buffer, 8).status == FRAMES_NULL && !frames_finish(NULL) && frames_begun(NULL) == 0);
    const size_t failed = (size_t)-1; /* what a read returns that failed */
    struct frames_sender unsent = frames_sender(0);
    CHECK(frames_send(&unsent, b, failed, buffer, 8).status == FRAMES_NULL && frames_send_plain(&unsent, b, failed, buffer, 8).status == FRAMES_NULL);
    CHECK(frames_encode(b, failed, buffer, 8).status == FRAMES_NO_ROOM && frames_encode_with_sentinel(b, failed, buffer, 8, 3).status == FRAMES_NO_ROOM);
    CHECK(frames_decode(b, failed, buffer, 8).status == FRAMES_NULL && frames_decode_with_sentinel(b, failed, buffer, 8, 0).status == FRAMES_NULL);
    CHECK(frames_decode_in_place(buffer, failed, 0).status == FRAMES_NULL && frames_unseal(b, failed).status == FRAMES_NULL);
    CHECK(frames_encoded_length(b, failed) == 0 && frames_crc32(b, failed) == 0);
    CHECK(frames_most_encoded_length(SIZE_MAX) == 0 && frames_most_encoded_length((size_t)1 << 63) == 0);
    CHECK(frames_most_encoded_length(((size_t)1 << 63) - 1) > (size_t)1 << 63);
    free(buffer);
}

int main(int argc, char **argv) {
    uint64_t rounds = argc > 1 ? strtoull(argv[1], NULL, 10) : 1000000;
    state = 88172645463325252u + (argc > 2 ? strtoull(argv[2], NULL, 10) * 0x9E3779B97F4A7C15u : 0);
    for (round_number = 0; round_number < rounds; round_number++) {
        encoding();
        decoding();
        receiving();
        summing();
        misusing();
    }
    printf("%llu rounds, %llu comparisons, no difference\n", (unsigned long long)rounds, (unsigned long long)checks);
}
