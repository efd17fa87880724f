/* Replays test vectors from standard input: cobs_encode, cobs_sentinel, cobs_decode, cobs_in_place whole; of stream the places of
 * the answers, which of them are `toolong`, that a value is of a frame, and the end. Other kinds are passed over. */
#define _POSIX_C_SOURCE 200809L
#include "frames.h"
#include <stdio.h>
#include <stdlib.h>
#include <string.h>

static unsigned long line_number, replayed, passed_over;
static char *line;

static void fail(const char *what) {
    printf("line %lu: %s: %.200s\n", line_number, what, line);
    exit(1);
}

static int digit(char c) { return c <= '9' ? c - '0' : c - 'a' + 10; }

/* Hexadecimal digits up to another character; `-` is no bytes. */
static size_t hex(const char *text, uint8_t *out) {
    size_t n = 0;
    while ((*text >= '0' && *text <= '9') || (*text >= 'a' && *text <= 'f')) {
        out[n++] = (uint8_t)(digit(text[0]) * 16 + digit(text[1]));
        text += 2;
    }
    return n;
}

static uint8_t a[1 << 16], b[1 << 16], c[1 << 16];

static void encode(uint8_t sentinel, const char *message, const char *frame, bool both) {
    size_t n = hex(message, a), w = hex(frame, b);
    memset(c, 0xEE, sizeof c);
    struct frames_written r = frames_encode_with_sentinel(a, n, c, w, sentinel);
    if (r.status != FRAMES_OK || r.length != w || memcmp(b, c, w) || frames_encoded_length(a, n) != w)
        fail("another frame");
    if (both && (r = frames_encode(a, n, c, w), r.status != FRAMES_OK || r.length != w || memcmp(b, c, w)))
        fail("another frame");
    if (frames_encode_with_sentinel(a, n, c, w - 1, sentinel).status != FRAMES_NO_ROOM)
        fail("one byte less isn't refused");
    struct frames_written d = frames_decode_with_sentinel(b, w, c, n, sentinel);
    if (d.status != FRAMES_OK || d.length != n || memcmp(a, c, n))
        fail("another message");
}

static void decode(const char *source, size_t room, const char *answer, const char *rest) {
    size_t n = hex(source, a);
    struct frames_read r = frames_decode(a, n, c, room);
    if (answer[0] != '!') {
        size_t w = hex(rest, b);
        if (r.status != FRAMES_OK || r.used != strtoul(answer, NULL, 10) || r.length != w || memcmp(b, c, w))
            fail("another answer");
    } else if (!strcmp(answer, "!EmptyFrame") ? r.status != FRAMES_EMPTY
               : !strcmp(answer, "!TargetBufTooSmall")
                   ? r.status != FRAMES_NO_ROOM
                   : r.status != FRAMES_INVALID || r.length != strtoul(rest, NULL, 10))
        fail("another refusal");
}

static void in_place(const char *source, const char *answer, const char *rest) {
    size_t n = hex(source, a);
    struct frames_read r = frames_decode_in_place(a, n, 0);
    if (answer[0] == '!' ? r.status != FRAMES_INVALID : false)
        fail("another refusal");
    if (answer[0] != '!') {
        size_t w = hex(rest, b);
        if (r.status != FRAMES_OK || r.used != strtoul(answer, NULL, 10) || r.length != w || memcmp(a, b, w))
            fail("another answer");
    }
}

static void stream(uint8_t sentinel, size_t limit, char *pieces, char *answers) {
    struct frames_receiver receiver = frames_receiver(sentinel);
    uint8_t *buffer = malloc(limit ? limit : 1);
    char *in = NULL, *out = NULL;
    char *piece = strtok_r(pieces, ",", &in), *answer = strtok_r(answers, "|", &out);
    for (; piece; piece = strtok_r(NULL, ",", &in), answer = strtok_r(NULL, "|", &out)) {
        size_t n = hex(piece, a), at = 0;
        char *each = NULL, *want = strcmp(answer, "-") ? strtok_r(answer, ";", &each) : NULL;
        for (;;) {
            struct frames_event e = frames_push_plain(&receiver, buffer, limit, a + at, n - at);
            at += e.used;
            if (e.kind == FRAMES_MORE)
                break;
            if (!want)
                fail("an answer too many");
            char *what = NULL;
            if (strtoul(want, &what, 10) != at - 1)
                fail("an answer at another place");
            if ((e.kind == FRAMES_TOO_LONG) != !strcmp(what, "!toolong") || (*what == '=' && e.kind != FRAMES_MESSAGE))
                fail("another answer");
            want = strtok_r(NULL, ";", &each);
        }
        if (want || at != n)
            fail("an answer too few");
    }
    if (frames_finish(&receiver) != !strcmp(answer, "cut"))
        fail("another end");
    free(buffer);
}

int main(void) {
    size_t size = 0;
    while (getline(&line, &size, stdin) > 0) {
        line_number++;
        char *copy = strdup(line), *rest = NULL, *f[12];
        size_t n = 0;
        for (char *word = strtok_r(copy, " \n", &rest); word && n < 12; word = strtok_r(NULL, " \n", &rest))
            f[n++] = word;
        replayed++;
        if (n && !strcmp(f[0], "cobs_encode"))
            encode(0, f[1], f[2], true);
        else if (n && !strcmp(f[0], "cobs_sentinel"))
            encode((uint8_t)strtoul(f[1], NULL, 16), f[2], f[3], false);
        else if (n && !strcmp(f[0], "cobs_decode"))
            decode(f[1], strtoul(f[2], NULL, 10), f[4], n > 5 ? f[5] : "");
        else if (n && !strcmp(f[0], "cobs_in_place"))
            in_place(f[1], f[3], n > 4 ? f[4] : "");
        else if (n && !strcmp(f[0], "stream"))
            stream((uint8_t)strtoul(f[1], NULL, 16), strtoul(f[2], NULL, 10), f[5], f[7]);
        else
            replayed--, passed_over++;
        free(copy);
    }
    free(line);
    printf("%lu replayed, %lu passed over, none differs\n", replayed, passed_over);
}
