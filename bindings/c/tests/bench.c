/* Times the library beside the plain C of plain.h. Prints nanoseconds and ratios; a figure is the least of many short samples, taken
 * in turn. With arguments it makes one kind of call so often, for a tool that counts instructions: tests/count. */
#define _POSIX_C_SOURCE 200809L
#include "frames.h"
#include "plain.h"
#include <stdio.h>
#include <stdlib.h>
#include <string.h>
#include <time.h>

static uint8_t message[1 << 16], frame[1 << 17], out[1 << 17], line[1 << 20], buffer[1 << 17];
static size_t n, w, line_length;
static volatile size_t sink;

static void encode_ours(void) { sink = frames_encode(message, n, out, sizeof out).length; }
static void encode_plain(void) { sink = plain_encode(message, n, out); }
static size_t room, step;
static void receive_ours(void) {
    struct frames_receiver r = frames_receiver(0);
    size_t messages = 0;
    for (size_t from = 0; from < line_length; from += step) {
        size_t length = line_length - from < step ? line_length - from : step;
        for (size_t at = 0; at < length;) {
            struct frames_event e = frames_push_plain(&r, buffer, room, line + from + at, length - at);
            at += e.used;
            messages += e.kind == FRAMES_MESSAGE ? e.length : 0;
        }
    }
    sink = messages;
}
static void bytes_ours(void) {
    struct frames_receiver r = frames_receiver(0);
    struct frames_event e;
    size_t messages = 0;
    for (size_t i = 0; i < line_length; i++)
        if (frames_push_byte_plain(&r, buffer, room, line[i], &e) == FRAMES_MESSAGE)
            messages += e.length;
    sink = messages;
}
static void counted_ours(void) {
    struct frames_receiver r = frames_receiver(0);
    struct frames_event e;
    size_t messages = 0;
    for (size_t i = 0; i < line_length; i++)
        if (frames_push_byte(&r, buffer, room, line[i], &e) == FRAMES_MESSAGE)
            messages += e.length;
    sink = messages;
}
static void counted_plain(void) {
    struct plain r = {0, 0, 0, false, false};
    size_t messages = 0, start, length;
    for (size_t i = 0; i < line_length; i++)
        if (plain_counted_byte(&r, buffer, room, line[i], &start, &length) == PLAIN_MESSAGE)
            messages += length;
    sink = messages;
}
static void receive_plain(void) {
    struct plain r = {0, 0, 0, false, false};
    size_t messages = 0, length;
    for (size_t i = 0; i < line_length; i++)
        if (plain_byte(&r, buffer, room, line[i], &length) == PLAIN_MESSAGE)
            messages += length;
    sink = messages;
}

static double sample(void (*call)(void), size_t times) {
    struct timespec a, b;
    clock_gettime(CLOCK_THREAD_CPUTIME_ID, &a);
    for (size_t i = 0; i < times; i++)
        call();
    clock_gettime(CLOCK_THREAD_CPUTIME_ID, &b);
    return ((double)(b.tv_sec - a.tv_sec) * 1e9 + (double)(b.tv_nsec - a.tv_nsec)) / (double)times;
}

static void compare(const char *what, size_t bytes, void (*ours)(void), void (*plain)(void)) {
    ours();
    size_t mine = sink;
    plain();
    if (mine != sink)
        printf("they differ: %zu, %zu\n", mine, sink);
    size_t times = 20000 / (bytes + 40) + 1;
    double best = 1e18, other = 1e18;
    for (int k = 0; k < 400; k++) {
        double t = sample(ours, times), u = sample(plain, times);
        best = t < best ? t : best;
        other = u < other ? u : other;
    }
    printf("%-36s %10.1f %10.1f %6.2f\n", what, best, other, best / other);
}

/* A message of n bytes: none zero, any, or every third a zero; behind its count where it is to be counted. */
static size_t make(uint8_t *to, char kind, bool is_counted) {
    size_t at = 0;
    if (is_counted) {
        size_t count = n;
        for (; count > 127; count >>= 7)
            to[at++] = (uint8_t)(count | 128);
        to[at++] = (uint8_t)count;
    }
    for (size_t i = 0; i < n; i++)
        to[at++] = kind == 'n' ? (uint8_t)(1 + rand() % 255) : kind == 'r' ? (uint8_t)rand() : rand() % 3 ? (uint8_t)(1 + rand() % 255) : 0;
    return at;
}

/* WHAT SIZE n|r|z TIMES [PIECE]: WHAT is a call by its letter, over 64 frames in a row where it receives. */
static int count(char **argv, size_t piece) {
    char what = argv[1][0];
    n = strtoul(argv[2], NULL, 10);
    srand(1);
    for (int k = 0; k < 64; k++) {
        size_t length = make(message, argv[3][0], what == 'c' || what == 'C');
        w = plain_encode(message, length, line + line_length);
        room = w > room ? w : room;
        line_length += w;
        line[line_length++] = 0;
    }
    step = piece;
    for (int i = 0, times = atoi(argv[4]); i < times; i++)
        switch (what) {
        case 'e': encode_ours(); break;
        case 'E': encode_plain(); break;
        case 'b': bytes_ours(); break;
        case 'B': receive_plain(); break;
        case 'c': counted_ours(); break;
        case 'C': counted_plain(); break;
        default: receive_ours();
        }
    return 0;
}

int main(int argc, char **argv) {
    static const size_t sizes[] = {4, 16, 64, 200, 1024, 65536};
    static const char *const kinds[] = {"no zeros", "random", "one zero in ten"};
    if (argc > 4)
        return count(argv, argc > 5 ? strtoul(argv[5], NULL, 10) : 4096);
    printf("%-36s %10s %10s %6s\n", "ns a call", "library", "plain C", "ratio");
    for (size_t k = 0; k < 3; k++)
        for (size_t s = 0; s < 6; s++) {
            n = sizes[s];
            srand(1);
            for (size_t i = 0; i < n; i++)
                message[i] = k == 0 ? (uint8_t)(1 + rand() % 255) : k == 1 ? (uint8_t)rand() : rand() % 10 ? (uint8_t)(1 + rand() % 255) : 0;
            char what[64];
            snprintf(what, sizeof what, "encode %zu, %s", n, kinds[k]);
            compare(what, n, encode_ours, encode_plain);
        }
    for (size_t s = 1; s < 5; s++) {
        line_length = 0;
        n = sizes[s];
        srand(2);
        while (line_length < 100000) {
            for (size_t i = 0; i < n; i++)
                message[i] = (uint8_t)rand();
            w = plain_encode(message, n, frame);
            memcpy(line + line_length, frame, w);
            line_length += w;
            line[line_length++] = 0;
        }
        room = n + n / 254 + 2;
        static const size_t steps[] = {1, 64, 4096};
        for (size_t k = 0; k < 3; k++) {
            step = steps[k];
            char what[64];
            snprintf(what, sizeof what, "receive 100 KB of %zu, pieces of %zu", n, step);
            compare(what, line_length, receive_ours, receive_plain);
        }
        char what[64];
        snprintf(what, sizeof what, "receive 100 KB of %zu, byte by byte", n);
        compare(what, line_length, bytes_ours, receive_plain);
    }
}
