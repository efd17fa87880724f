/* What the library is measured against: an encoder that goes byte by byte, and a receiver that is a state machine, each as is usual in C.
 * The machine decodes as bytes come, so that a stretch costs nothing more at its end; it is a function of its own, as an interrupt
 * handler calls it, and stops at the room for a message, where the library stops at that for a frame. */
#ifndef PLAIN_H
#define PLAIN_H

#include <stdbool.h>
#include <stddef.h>
#include <stdint.h>
#include <string.h>

static size_t plain_encode(const uint8_t *p, size_t n, uint8_t *out) {
    size_t code_at = 0, at = 1;
    uint8_t code = 1;
    for (size_t i = 0; i < n; i++) {
        if (code == 0xFF) {
            out[code_at] = code;
            code = 1;
            code_at = at++;
        }
        if (p[i]) {
            out[at++] = p[i];
            code++;
        } else {
            out[code_at] = code;
            code = 1;
            code_at = at++;
        }
    }
    out[code_at] = code;
    return at;
}

struct plain {
    uint8_t left, code;
    size_t count;
    bool over, begun;
};
enum { PLAIN_MORE, PLAIN_MESSAGE, PLAIN_DAMAGED };

static inline int plain_take(struct plain *r, uint8_t *buffer, size_t room, uint8_t b, size_t *length) {
    if (b == 0) {
        int kind = !r->begun ? PLAIN_MORE : r->left == 0 && !r->over ? PLAIN_MESSAGE : PLAIN_DAMAGED;
        *length = r->count;
        memset(r, 0, sizeof *r);
        return kind;
    }
    if (r->left == 0) {
        if (r->begun && r->code != 0xFF) {
            if (r->count < room)
                buffer[r->count++] = 0;
            else
                r->over = true;
        }
        r->begun = true;
        r->code = b;
        r->left = (uint8_t)(b - 1);
    } else {
        if (r->count < room)
            buffer[r->count++] = b;
        else
            r->over = true;
        r->left--;
    }
    return PLAIN_MORE;
}

/* Takes one byte. */
__attribute__((noinline, noclone)) static int plain_byte(struct plain *r, uint8_t *buffer, size_t room, uint8_t b, size_t *length) {
    return plain_take(r, buffer, room, b, length);
}

/* The same of counted messages: where their bytes begin, and how many they are. */
__attribute__((noinline, noclone)) static int plain_counted_byte(struct plain *r, uint8_t *buffer, size_t room, uint8_t b,
                                                                 size_t *start, size_t *length) {
    size_t n;
    int kind = plain_take(r, buffer, room, b, &n);
    if (kind != PLAIN_MESSAGE)
        return kind;
    uint64_t count = 0;
    for (size_t i = 0; i < n && i < 10; i++) {
        count |= (uint64_t)(buffer[i] & 127) << (7 * i);
        if (buffer[i] < 128) {
            *start = i + 1;
            *length = count;
            return (i == 9 && buffer[i] > 1) || count > n - i - 1 ? PLAIN_DAMAGED : PLAIN_MESSAGE;
        }
    }
    return PLAIN_DAMAGED;
}

#endif
