/* Messages of bytes as frames over a line that may break, for a device that can't link the library: sender, receiver and CRC-32.
 * C99 to C23 and C++; 16-bit, 32-bit and 64-bit processors; no allocation, no C library, no globals, no recursion. Its bytes are those of
 * frames.h, and calls and events have the same names and order of arguments.
 *
 * Messages are counted unless a call says plain: see README.md. To notice bytes that changed on the line, seal a message before it is
 * sent, and unseal what is received.
 *
 *     struct frames_small_receiver receiver = {0};   a new receiver for the sentinel zero; frames_small_new_receiver for another
 *     struct frames_small_sender sender = {0};       likewise
 *
 * What the caller must keep to: the buffer of a receiver is the same at each call; pointers aren't null unless their length is 0; a length
 * is at most SIZE_MAX / 2, as that of a read that failed (-1) isn't; no call is made inside another one with the same receiver or sender,
 * such as by `put` or an interrupt.
 *
 * What is proved and what isn't. The functions between the lines `PROVED` and `END` are a transcription of the crate frames_small, which is
 * proved; `.ci/small` translates that crate line by line and compares. The tests for null pointers and the struct of an event aren't in
 * it. That a C compiler does with these lines what the crate does is tested: crates/frames_small/README.md. */
#ifndef FRAMES_SMALL_H
#define FRAMES_SMALL_H

#if !defined(__cplusplus) && defined(__STRICT_ANSI__) && (!defined(__STDC_VERSION__) || __STDC_VERSION__ < 199901L)
#error "frames_small.h: C99 or later is needed: -std=c99"
#endif

#include <stdbool.h>
#include <stddef.h>
#include <stdint.h>

#ifdef __cplusplus
#define FRAMES_SMALL_U8(n) static_cast<uint8_t>(n)
extern "C" {
#else
#define FRAMES_SMALL_U8(n) ((uint8_t)(n))
#endif

/* The result of a byte. */
enum {
    FRAMES_SMALL_MORE = 0,     /* nothing */
    FRAMES_SMALL_MESSAGE = 1,  /* a message, in the buffer until the next byte */
    FRAMES_SMALL_DAMAGED = 2,  /* the bytes between two sentinels are no frame, or not that of a counted message */
    FRAMES_SMALL_TOO_LONG = 3, /* more bytes between two sentinels than the buffer has */
    FRAMES_SMALL_MISUSED = 4   /* more bytes are begun than the buffer has, a pointer is null, or the receiver was never set: nothing changed */
};

/* What a receiver keeps between bytes. What is decoded of the message is at the start of your buffer. */
struct frames_small_receiver {
    size_t stretch; /* how many bytes have come since the last sentinel */
    size_t decided; /* how many bytes of a message they decide */
    uint8_t left;   /* how many bytes the block still has */
    bool owes;      /* whether a zero comes before the next block */
    bool past;      /* whether they are too many */
    uint8_t sentinel;
};

/* Where the message is: so many bytes of the buffer, from start on. stretch is how many bytes came before the sentinel, or, if they are too
 * many, before the byte past the buffer. */
struct frames_small_event {
    size_t stretch;
    size_t start;
    size_t length;
};

/* What a sender keeps between messages. */
struct frames_small_sender {
    bool clean; /* whether all of the last send went out */
    uint8_t sentinel;
};

/* Your function that sends a byte to `line`. Returns false if it can't. */
typedef bool frames_small_put(void *line, uint8_t byte);

/* PROVED: crates/frames_small/src/counting.rt */

static inline size_t frames_small_count_end(const uint8_t *message, size_t message_len) {
    size_t at = 0;
    while (at < 10) {
        if (at == message_len) {
            return 0;
        }
        if (message[at] < 128) {
            return at + 1;
        }
        at += 1;
    }
    return 0;
}

static inline bool frames_small_value_of(const uint8_t *groups, size_t groups_len, size_t most, size_t *value) {
    size_t n = 0;
    size_t at = groups_len;
    while (at != 0) {
        if (most / 128 < n) {
            return false;
        }
        at -= 1;
        n = n * 128 + groups[at] % 128u;
    }
    if (most < n) {
        return false;
    }
    *value = n;
    return true;
}

static inline bool frames_small_counted(const uint8_t *message, size_t message_len, struct frames_small_event *event) {
    size_t start = frames_small_count_end(message, message_len);
    if (start == 0) {
        return false;
    }
    if (!frames_small_value_of(message, start, message_len - start, &event->length)) {
        return false;
    }
    event->start = start;
    return true;
}

static inline uint8_t frames_small_counted_event(uint8_t kind, const uint8_t *buffer, struct frames_small_event *event) {
    if (kind == FRAMES_SMALL_MESSAGE && !frames_small_counted(buffer, event->length, event)) {
        return FRAMES_SMALL_DAMAGED;
    }
    return kind;
}

/* PROVED: crates/frames_small/src/receiving.rt */

static inline struct frames_small_receiver frames_small_new_receiver(uint8_t sentinel) {
    struct frames_small_receiver self;
    self.stretch = 0;
    self.decided = 0;
    self.left = 0;
    self.owes = false;
    self.past = false;
    self.sentinel = sentinel;
    return self;
}

static inline uint8_t frames_small_kind(const struct frames_small_receiver *self, struct frames_small_event *event) {
    if (self->past) {
        return FRAMES_SMALL_MORE;
    }
    if (self->stretch == 0) {
        return FRAMES_SMALL_MORE;
    }
    if (self->left == 0) {
        event->start = 0;
        event->length = self->decided;
        return FRAMES_SMALL_MESSAGE;
    } else {
        return FRAMES_SMALL_DAMAGED;
    }
}

static inline uint8_t frames_small_end(struct frames_small_receiver *self, struct frames_small_event *event) {
    uint8_t kind = frames_small_kind(self, event);
    self->stretch = 0;
    self->decided = 0;
    self->left = 0;
    self->owes = false;
    self->past = false;
    return kind;
}

static inline void frames_small_take(struct frames_small_receiver *self, uint8_t *buffer, uint8_t byte) {
    self->stretch += 1;
    if (self->left != 0) {
        self->left -= 1;
        buffer[self->decided] = byte;
        self->decided += 1;
    } else {
        if (self->owes) {
            buffer[self->decided] = 0;
            self->decided += 1;
        }
        self->owes = byte != 255;
        self->left = FRAMES_SMALL_U8(byte - 1);
    }
}

static inline uint8_t frames_small_take_byte(struct frames_small_receiver *self, uint8_t *buffer, size_t buffer_len, uint8_t byte,
                                             struct frames_small_event *event) {
    uint8_t code = self->sentinel ^ byte;
    if (code == 0) {
        return frames_small_end(self, event);
    }
    if (self->past) {
        return FRAMES_SMALL_MORE;
    }
    if (self->stretch == buffer_len) {
        self->past = true;
        return FRAMES_SMALL_TOO_LONG;
    }
    frames_small_take(self, buffer, code);
    return FRAMES_SMALL_MORE;
}

static inline uint8_t frames_small_push_plain(struct frames_small_receiver *self, uint8_t *buffer, size_t buffer_len, uint8_t byte,
                                              struct frames_small_event *event) {
    return frames_small_take_byte(self, buffer, buffer_len, byte, event);
}

static inline uint8_t frames_small_push(struct frames_small_receiver *self, uint8_t *buffer, size_t buffer_len, uint8_t byte,
                                        struct frames_small_event *event) {
    uint8_t kind = frames_small_take_byte(self, buffer, buffer_len, byte, event);
    return frames_small_counted_event(kind, buffer, event);
}

static inline uint8_t frames_small_brought(size_t stretch, uint8_t kind, struct frames_small_event *event) {
    if (kind != FRAMES_SMALL_MORE) {
        event->stretch = stretch;
    }
    return kind;
}

/* Takes a byte, and returns its result; for an interrupt handler. With FRAMES_SMALL_MESSAGE the event is set; with FRAMES_SMALL_DAMAGED and
 * FRAMES_SMALL_TOO_LONG its stretch alone, and start and length mean nothing; with the others it stays as it was. */
static inline uint8_t frames_small_push_byte(struct frames_small_receiver *self, uint8_t *buffer, size_t buffer_len, uint8_t byte,
                                             struct frames_small_event *event) {
    size_t stretch;
    uint8_t kind;
    if (!self || !event || (!buffer && buffer_len != 0)) {
        return FRAMES_SMALL_MISUSED;
    }
    if (buffer_len < self->stretch || self->stretch < self->decided) {
        return FRAMES_SMALL_MISUSED;
    }
    stretch = self->stretch;
    kind = frames_small_push(self, buffer, buffer_len, byte, event);
    return frames_small_brought(stretch, kind, event);
}

/* The same for plain messages. */
static inline uint8_t frames_small_push_byte_plain(struct frames_small_receiver *self, uint8_t *buffer, size_t buffer_len, uint8_t byte,
                                                   struct frames_small_event *event) {
    size_t stretch;
    uint8_t kind;
    if (!self || !event || (!buffer && buffer_len != 0)) {
        return FRAMES_SMALL_MISUSED;
    }
    if (buffer_len < self->stretch || self->stretch < self->decided) {
        return FRAMES_SMALL_MISUSED;
    }
    stretch = self->stretch;
    kind = frames_small_push_plain(self, buffer, buffer_len, byte, event);
    return frames_small_brought(stretch, kind, event);
}

/* How many bytes have come since the last sentinel; 0 after FRAMES_SMALL_TOO_LONG. If the line has ended and this isn't 0, the last
 * frame was cut off. */
static inline size_t frames_small_begun(const struct frames_small_receiver *self) {
    if (self->past) {
        return 0;
    } else {
        return self->stretch;
    }
}

/* PROVED: crates/frames_small/src/sending.rt */

static inline uint8_t frames_small_byte_at(const uint8_t *count, size_t count_len, const uint8_t *message, size_t i) {
    if (i < count_len) {
        return count[i];
    } else {
        return message[i - count_len];
    }
}

static inline size_t frames_small_run_at(const uint8_t *count, size_t count_len, const uint8_t *message, size_t at, size_t end) {
    size_t run = 0;
    while (run < 254) {
        if (at + run == end) {
            return run;
        }
        if (frames_small_byte_at(count, count_len, message, at + run) == 0) {
            return run;
        }
        run += 1;
    }
    return run;
}

static inline bool frames_small_put_bytes(frames_small_put *put, void *line, const uint8_t *count, size_t count_len, const uint8_t *message,
                                          size_t from, size_t run, uint8_t sentinel) {
    size_t sent = 0;
    while (sent < run) {
        if (!put(line, sentinel ^ frames_small_byte_at(count, count_len, message, from + sent))) {
            return false;
        }
        sent += 1;
    }
    return true;
}

static inline bool frames_small_put_block(frames_small_put *put, void *line, const uint8_t *count, size_t count_len, const uint8_t *message,
                                          size_t at, size_t run, uint8_t sentinel) {
    uint8_t code = FRAMES_SMALL_U8(run + 1);
    if (!put(line, sentinel ^ code)) {
        return false;
    }
    return frames_small_put_bytes(put, line, count, count_len, message, at, run, sentinel);
}

static inline size_t frames_small_behind(size_t at, size_t run) {
    if (run < 254) {
        return at + run + 1;
    } else {
        return at + run;
    }
}

static inline bool frames_small_put_blocks(frames_small_put *put, void *line, const uint8_t *count, size_t count_len,
                                           const uint8_t *message, size_t end, uint8_t sentinel) {
    size_t at = 0;
    for (;;) {
        size_t run = frames_small_run_at(count, count_len, message, at, end);
        if (!frames_small_put_block(put, line, count, count_len, message, at, run, sentinel)) {
            return false;
        }
        if (at + run == end) {
            return true;
        }
        at = frames_small_behind(at, run);
    }
}

static inline bool frames_small_put_ended(frames_small_put *put, void *line, const uint8_t *count, size_t count_len, const uint8_t *message,
                                          size_t message_len, uint8_t sentinel) {
    if (!frames_small_put_blocks(put, line, count, count_len, message, count_len + message_len, sentinel)) {
        return false;
    }
    return put(line, sentinel);
}

static inline size_t frames_small_put_groups(size_t n, uint8_t *out) {
    size_t rest = n;
    size_t i = 0;
    while (rest >= 128) {
        out[i] = FRAMES_SMALL_U8(rest % 128 + 128);
        rest /= 128;
        i += 1;
    }
    out[i] = FRAMES_SMALL_U8(rest);
    return i + 1;
}

static inline bool frames_small_put_counted(frames_small_put *put, void *line, const uint8_t *message, size_t message_len,
                                            uint8_t sentinel) {
    uint8_t groups[(sizeof(size_t) * 8 + 6) / 7];
    size_t count_len = frames_small_put_groups(message_len, groups);
    return frames_small_put_ended(put, line, groups, count_len, message, message_len, sentinel);
}

static inline bool frames_small_put_lead(frames_small_put *put, void *line, bool clean, uint8_t sentinel) {
    if (clean) {
        return true;
    }
    return put(line, sentinel);
}

static inline bool frames_small_put_message(frames_small_put *put, void *line, bool clean, const uint8_t *message, size_t message_len,
                                            uint8_t sentinel) {
    if (!frames_small_put_lead(put, line, clean, sentinel)) {
        return false;
    }
    return frames_small_put_counted(put, line, message, message_len, sentinel);
}

static inline bool frames_small_put_plain(frames_small_put *put, void *line, bool clean, const uint8_t *message, size_t message_len,
                                          uint8_t sentinel) {
    if (!frames_small_put_lead(put, line, clean, sentinel)) {
        return false;
    }
    return frames_small_put_ended(put, line, message, 0, message, message_len, sentinel);
}

/* A sender that hasn't sent anything, and so begins with a sentinel, which ends what others may have left on the line. */
static inline struct frames_small_sender frames_small_new_sender(uint8_t sentinel) {
    struct frames_small_sender self;
    self.clean = false;
    self.sentinel = sentinel;
    return self;
}

/* Sends a message: a sentinel unless the last send went out whole; the frame of its length and bytes; a sentinel. No buffer is needed.
 * Returns whether all of it went out. If it didn't, do nothing: the next send begins with a sentinel. */
static inline bool frames_small_send(struct frames_small_sender *self, frames_small_put *put, void *line, const uint8_t *message,
                                     size_t message_len) {
    bool clean = self->clean;
    self->clean = false;
    if (!frames_small_put_message(put, line, clean, message, message_len, self->sentinel)) {
        return false;
    }
    self->clean = true;
    return true;
}

/* The same for a plain message. */
static inline bool frames_small_send_plain(struct frames_small_sender *self, frames_small_put *put, void *line, const uint8_t *message,
                                           size_t message_len) {
    bool clean = self->clean;
    self->clean = false;
    if (!frames_small_put_plain(put, line, clean, message, message_len, self->sentinel)) {
        return false;
    }
    self->clean = true;
    return true;
}

/* PROVED: crates/frames_small/src/checksum.rt */

static inline uint32_t frames_small_add_bit(uint32_t state) {
    if (state % 2 == 0) {
        return state / 2;
    } else {
        return (state / 2) ^ 0xEDB88320;
    }
}

static inline uint32_t frames_small_add_byte(uint32_t state, uint8_t byte) {
    uint32_t moved = state ^ byte;
    uint8_t bit = 0;
    while (bit < 8) {
        moved = frames_small_add_bit(moved);
        bit += 1;
    }
    return moved;
}

static inline uint32_t frames_small_add_bytes(uint32_t state, const uint8_t *bytes, size_t bytes_len) {
    size_t at;
    for (at = 0; at < bytes_len; at++) {
        state = frames_small_add_byte(state, bytes[at]);
    }
    return state;
}

/* The CRC-32 of bytes, as in Ethernet, gzip and PNG. */
static inline uint32_t frames_small_crc32(const uint8_t *bytes, size_t bytes_len) {
    return frames_small_add_bytes(0xFFFFFFFFu, bytes, bytes_len) ^ 0xFFFFFFFFu;
}

static inline void frames_small_seal_of(const uint8_t *message, size_t message_len, uint8_t *seal) {
    uint32_t sum = frames_small_crc32(message, message_len);
    seal[0] = FRAMES_SMALL_U8(sum % 256);
    seal[1] = FRAMES_SMALL_U8(sum / 256 % 256);
    seal[2] = FRAMES_SMALL_U8(sum / 256 / 256 % 256);
    seal[3] = FRAMES_SMALL_U8(sum / 256 / 256 / 256 % 256);
}

/* Appends the CRC-32 of the first `size` bytes of a buffer to them, and returns how many are to be sent then: four more. 0 if they don't
 * fit; the buffer is unchanged then. */
static inline size_t frames_small_seal(uint8_t *buffer, size_t buffer_len, size_t size) {
    if (buffer_len < size || buffer_len - size < 4) {
        return 0;
    }
    frames_small_seal_of(buffer, size, buffer + size);
    return size + 4;
}

/* Whether the last four bytes of a message are the CRC-32 of those before them, which are `message_len - 4`. */
static inline bool frames_small_unseal(const uint8_t *message, size_t message_len) {
    uint8_t seal[4];
    if (message_len < 4) {
        return false;
    }
    message_len -= 4;
    frames_small_seal_of(message, message_len, seal);
    return message[message_len] == seal[0] && message[message_len + 1] == seal[1] && message[message_len + 2] == seal[2] &&
           message[message_len + 3] == seal[3];
}

/* END of what is transcribed */

#ifdef __cplusplus
}
#endif
#endif
