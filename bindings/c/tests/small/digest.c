/* One number over everything that frames_small.h returns for the same random streams and messages: the same number on each processor.
 * On the machine itself (-DBESIDE) each step is compared with the proved library too; bare on a Cortex-M (cortex_m.c) and an AVR. */
#include "frames_small.h"
#ifdef BESIDE
#include "frames.h"
#include <stdio.h>
#include <stdlib.h>
#include <string.h>
#endif

static uint32_t sum = 0xFFFFFFFFu, state = 1;
static void note(uint32_t n) {
    for (int i = 0; i < 4; i++, n >>= 8) sum = frames_small_add_byte(sum, (uint8_t)(n & 255));
}
static uint32_t some(uint32_t n) {
    state ^= state << 13;
    state ^= state >> 17;
    state ^= state << 5;
    return state % n;
}
static uint8_t m[600], line[700], buffer[700];
static size_t length, most;
static bool put(void *context, uint8_t byte) {
    (void)context;
    if (length == most) return false;
    line[length++] = byte;
    return true;
}
static void receive(size_t room, uint8_t sentinel, int plain) {
    struct frames_small_receiver r = frames_small_new_receiver(sentinel);
    struct frames_small_event e = {0, 0, 0};
#ifdef BESIDE
    static uint8_t other[700];
    struct frames_receiver q = frames_receiver(sentinel);
#endif
    for (size_t i = 0; i < length; i++) {
        uint8_t kind = plain ? frames_small_push_byte_plain(&r, buffer, room, line[i], &e) : frames_small_push_byte(&r, buffer, room, line[i], &e);
        note(kind);
        if (kind != FRAMES_SMALL_MORE) note((uint32_t)e.stretch);
        if (kind == FRAMES_SMALL_MESSAGE) {
            note((uint32_t)e.length);
            note(frames_small_crc32(buffer + e.start, e.length));
        }
#ifdef BESIDE
        struct frames_event v;
        uint8_t want = plain ? frames_push_byte_plain(&q, other, room, line[i], &v) : frames_push_byte(&q, other, room, line[i], &v);
        if (want != kind || (kind && v.stretch != e.stretch) ||
            (kind == 1 && (v.length != e.length || v.start != e.start || memcmp(other + v.start, buffer + e.start, e.length)))) {
            puts("differs");
            exit(1);
        }
#endif
    }
}
static uint32_t digest(int rounds) {
    static const uint16_t sizes[] = {126, 127, 128, 253, 254, 255, 508, 509};
    for (int k = 0; k < rounds; k++) {
        size_t n = some(3) ? some(20) : sizes[some(8)], room = some(3) ? some(30) : 100 + some(600);
        uint32_t kind = some(3);
        int plain = some(3) == 0;
        for (size_t i = 0; i < n; i++) m[i] = (uint8_t)(kind == 0 ? some(256) : kind == 1 ? 1 + some(255) : some(3));
        struct frames_small_sender s = frames_small_new_sender((uint8_t)(some(3) ? 0 : some(256)));
        s.clean = some(2);
        length = 0;
        most = some(3) ? sizeof line : some((uint32_t)n + 4);
        note(plain ? frames_small_send_plain(&s, put, 0, m, n) : frames_small_send(&s, put, 0, m, n));
        note((uint32_t)length);
        note(frames_small_crc32(line, length));
        if (length && some(3) == 0) {
            uint32_t at = some((uint32_t)length); /* an order that C leaves open otherwise */
            line[at] = (uint8_t)some(256);
        }
        if (length < sizeof line) line[length++] = s.sentinel;
        receive(room, s.sentinel, plain);
        size_t sealed = frames_small_seal(buffer, room, some(30));
        note((uint32_t)sealed);
        note(frames_small_unseal(buffer, sealed ? sealed : room));
    }
    return ~sum;
}
#ifndef ROUNDS
#define ROUNDS 3000
#endif

#ifdef BESIDE
int main(void) {
    printf("%08x\n", (unsigned)digest(ROUNDS));
    return 0;
}
#elif defined(__AVR__)
#include <avr/interrupt.h>
#include <avr/io.h>
#include <avr/sleep.h>
static void say(char c) {
    while (!(UCSR0A & (1 << UDRE0))) {
    }
    UDR0 = (uint8_t)c;
}
int main(void) {
    UBRR0L = 0;
    UCSR0B = 1 << TXEN0;
    uint32_t d = digest(ROUNDS);
    for (int i = 0; i < 8; i++) say("0123456789abcdef"[d >> (28 - 4 * i) & 15]);
    say('\n');
    for (volatile long k = 0; k < 20000; k++) {
    }
    cli();
    sleep_mode();
}
#else
static void say(const char *text) {
    register int r0 __asm__("r0") = 4; /* SYS_WRITE0 */
    register const char *r1 __asm__("r1") = text;
    __asm__ volatile("bkpt 0xAB" : "+r"(r0) : "r"(r1) : "memory");
}
int work(void) {
    char text[10] = {0};
    uint32_t d = digest(ROUNDS);
    for (int i = 0; i < 8; i++) text[i] = "0123456789abcdef"[d >> (28 - 4 * i) & 15];
    text[8] = '\n';
    say(text);
    return 0;
}
#endif
