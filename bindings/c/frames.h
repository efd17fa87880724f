/* Frames of bytes over a line that may break, and their codec, for C99 and later and C++. The library behind it is proved; this
 * header isn't.
 *
 * Terms. A FRAME holds no zero, so that a zero ends it (COBS). If another byte ends frames, it is the SENTINEL: every byte of a frame is
 * XORed with it. A STRETCH is the bytes between two sentinels. A message is COUNTED if its length precedes it in the frame, as postcard
 * (Rust) encodes a byte string; otherwise it is PLAIN: its bytes alone. It is SEALED if a CRC-32 follows it.
 *
 * Plain messages. If a plain send is interrupted, a prefix of its message may itself be a frame: frames_send_plain("pay\0me") that stops
 * after five bytes is received as `pay`, which nobody sent. So of an interrupted plain send, the receiver reports nothing, damage, too many
 * bytes, or a prefix of its message. No part of an interrupted counted message is received as a message; that is proved. Counted messages
 * are the calls without `plain` in their names.
 *
 * Changed bytes. A byte that changed on the line may make the frame of another message, counted or not; so may a receiver that begins
 * inside a frame, up to the next sentinel. Against both seal each message: frames_seal before it is sent, frames_unseal of what is
 * received.
 *
 * Targets: x86-64 and aarch64. A 32-bit microcontroller can't link the library; frames_small.h is for one. Without a system, first enable
 * vector registers and unaligned access (README.md), and let an interrupt handler that calls the library save these registers.
 *
 * No call allocates, keeps a pointer, prints, waits, or stops the process. None has state of its own: what has to be remembered is in a
 * struct of yours. Calls on different structs and buffers may run at the same time.
 *
 * What the caller must keep to, and nothing can check:
 * - a pointer that isn't null points to as many bytes as its length says, which may be read, and written if it isn't to const;
 * - what is written overlaps nothing else that the call is handed;
 * - a length is below 2^63;
 * - a receiver is handed the same buffer at each call, and its start isn't changed between two calls.
 * A null pointer is allowed if its length is 0; otherwise the call returns FRAMES_NULL, or FRAMES_MISUSED. So it does if the length of what
 * it reads is -1, as of a read that failed; encoding returns FRAMES_NO_ROOM then. */
#ifndef FRAMES_H
#define FRAMES_H

#if !defined(__cplusplus) && defined(__STRICT_ANSI__) && (!defined(__STDC_VERSION__) || __STDC_VERSION__ < 199901L)
#error "frames.h: C99 or later is needed: -std=c99"
#endif

#include <stdbool.h>
#include <stddef.h>
#include <stdint.h>

#ifdef __cplusplus
extern "C" {
#if defined(__GNUC__) && !defined(__clang__)
#pragma GCC diagnostic push
#pragma GCC diagnostic ignored "-Wshadow" /* a struct and a function of one name, as C has them */
#endif
#endif

/* The status of a call. */
enum frames_status {
    FRAMES_OK = 0,
    FRAMES_NO_ROOM = 1, /* what is to be written doesn't fit */
    FRAMES_INVALID = 2, /* the bytes are no frame, or no sealed message */
    FRAMES_EMPTY = 3,   /* no byte but zeros */
    FRAMES_NULL = 255   /* a pointer is null, and its length isn't 0; or the length is that of a read that failed (-1) */
};

/* What a push found. */
enum frames_kind {
    FRAMES_MORE = 0,     /* nothing yet: all bytes were used */
    FRAMES_MESSAGE = 1,  /* a message, in the buffer until the next push */
    FRAMES_DAMAGED = 2,  /* a stretch that is no frame, or whose message isn't counted but should be */
    FRAMES_TOO_LONG = 3, /* a stretch with more bytes than the buffer has */
    FRAMES_MISUSED = 4   /* more bytes are begun than the buffer has, a pointer is null, or the length is that of a read that failed (-1):
                            nothing changed */
};

/* What was written: how many bytes; 0 if it was refused. With FRAMES_INVALID of decoding, how many bytes of a message precede the error. */
struct frames_written {
    size_t length;
    uint8_t status;
};

/* What was read: how many bytes of the source were used, 0 if it was refused; and how long the message is, or with FRAMES_INVALID how many
 * bytes of it precede the error. */
struct frames_read {
    size_t used;
    size_t length;
    uint8_t status;
};

/* What a receiver keeps between two calls. What has come of a stretch is at the start of your buffer. `{0}` is a new receiver for the
 * sentinel zero. */
struct frames_receiver {
    size_t count;
    uint8_t past;
    uint8_t sentinel;
};

/* The result of a push: how many bytes were used, 0 with FRAMES_MISUSED; how many bytes of the stretch came before the last one that was
 * used, 0 with FRAMES_MORE and FRAMES_MISUSED; where in the buffer the message begins, and how long it is, both 0 without one; what was
 * found. */
struct frames_event {
    size_t used;
    size_t stretch;
    size_t start;
    size_t length;
    uint8_t kind;
};

/* What a sender keeps between two calls. `{0}` is a new sender for the sentinel zero. */
struct frames_sender {
    uint8_t clean;
    uint8_t sentinel;
};

/* ---- The functions of the library. No pointer may be null here, also if its length is 0: call those below in their place. ---- */

size_t frames_c_most_encoded_length(size_t length);
size_t frames_c_encoded_length(const uint8_t *source, size_t length);
struct frames_written frames_c_encode(const uint8_t *source, size_t length, uint8_t *dest, size_t room);
struct frames_written frames_c_encode_with_sentinel(const uint8_t *source, size_t length, uint8_t *dest, size_t room,
                                                    uint8_t sentinel);
struct frames_read frames_c_decode(const uint8_t *source, size_t length, uint8_t *dest, size_t room);
struct frames_written frames_c_decode_with_sentinel(const uint8_t *source, size_t length, uint8_t *dest, size_t room,
                                                    uint8_t sentinel);
struct frames_read frames_c_decode_in_place(uint8_t *buffer, size_t length, uint8_t sentinel);
struct frames_receiver frames_c_receiver(uint8_t sentinel);
struct frames_event frames_c_push(struct frames_receiver *receiver, uint8_t *buffer, size_t room, const uint8_t *bytes,
                                  size_t length);
struct frames_event frames_c_push_plain(struct frames_receiver *receiver, uint8_t *buffer, size_t room, const uint8_t *bytes,
                                        size_t length);
uint8_t frames_c_push_byte(struct frames_receiver *receiver, uint8_t *buffer, size_t room, uint8_t byte,
                           struct frames_event *event);
uint8_t frames_c_push_byte_plain(struct frames_receiver *receiver, uint8_t *buffer, size_t room, uint8_t byte,
                                 struct frames_event *event);
bool frames_c_finish(struct frames_receiver *receiver);
size_t frames_c_begun(const struct frames_receiver *receiver);
struct frames_sender frames_c_sender(uint8_t sentinel);
struct frames_written frames_c_send(struct frames_sender *sender, const uint8_t *message, size_t length, uint8_t *dest,
                                    size_t room);
struct frames_written frames_c_send_plain(struct frames_sender *sender, const uint8_t *message, size_t length, uint8_t *dest,
                                          size_t room);
void frames_c_sent(struct frames_sender *sender);
uint32_t frames_c_crc32(const uint8_t *bytes, size_t length);
struct frames_written frames_c_seal(uint8_t *buffer, size_t room, size_t length);
struct frames_written frames_c_unseal(const uint8_t *message, size_t length);

/* ---- What to call. Each looks for null pointers and calls the function of its name. ---- */

/* Whether a buffer may be handed on. */
static inline bool frames_is_there(const void *bytes, size_t length) { return bytes || length == 0; }

/* Whether bytes may be read: not if a read failed, and its -1 was handed on as their length. */
static inline bool frames_is_read(const void *bytes, size_t length) { return frames_is_there(bytes, length) && length <= SIZE_MAX / 2; }

/* A pointer that isn't null, in place of one to nothing. */
static inline const uint8_t *frames_from(const uint8_t *bytes) {
    static const uint8_t nothing = 0;
    return bytes ? bytes : &nothing;
}
static inline uint8_t *frames_to(uint8_t *bytes) {
    static uint8_t nothing; /* never written: its length is 0 */
    return bytes ? bytes : &nothing;
}

/* The most bytes that the frame of a message of so many bytes has; 0 if no message is so long. The longest send of a plain message has
 * two more, that of a counted one up to fourteen (of up to 127 bytes, three). */
static inline size_t frames_most_encoded_length(size_t length) { return frames_c_most_encoded_length(length); }

/* How many bytes the frame of a message has: what encoding needs, and no more. 0 if the pointer is null. */
static inline size_t frames_encoded_length(const uint8_t *source, size_t length) {
    return frames_is_read(source, length) ? frames_c_encoded_length(frames_from(source), length) : 0;
}

/* Writes the shortest frame of a message, which any decoder of COBS takes, without a zero after it. FRAMES_NO_ROOM exactly if it doesn't
 * fit; dest is unchanged then. */
static inline struct frames_written frames_encode(const uint8_t *source, size_t length, uint8_t *dest, size_t room) {
    if (!frames_is_there(source, length) || !frames_is_there(dest, room)) {
        struct frames_written null = {0, FRAMES_NULL};
        return null;
    }
    return frames_c_encode(frames_from(source), length, frames_to(dest), room);
}

/* The same with every byte of the frame XORed with the sentinel. */
static inline struct frames_written frames_encode_with_sentinel(const uint8_t *source, size_t length, uint8_t *dest, size_t room,
                                                                uint8_t sentinel) {
    if (!frames_is_there(source, length) || !frames_is_there(dest, room)) {
        struct frames_written null = {0, FRAMES_NULL};
        return null;
    }
    return frames_c_encode_with_sentinel(frames_from(source), length, frames_to(dest), room, sentinel);
}

/* Decodes the first frame of a source, after any zeros, up to the next zero or to the end. used counts the leading zeros, the frame, and
 * its zero if there is one. FRAMES_EMPTY, FRAMES_INVALID, or FRAMES_NO_ROOM: bytes of a message that precede the error are in dest then, as
 * far as they fit. */
static inline struct frames_read frames_decode(const uint8_t *source, size_t length, uint8_t *dest, size_t room) {
    if (!frames_is_read(source, length) || !frames_is_there(dest, room)) {
        struct frames_read null = {0, 0, FRAMES_NULL};
        return null;
    }
    return frames_c_decode(frames_from(source), length, frames_to(dest), room);
}

/* Decodes the bytes before the first sentinel, or all if there is none. If there are no bytes before it, the message has none.
 * FRAMES_INVALID, or FRAMES_NO_ROOM, and dest as with frames_decode. */
static inline struct frames_written frames_decode_with_sentinel(const uint8_t *source, size_t length, uint8_t *dest, size_t room,
                                                                uint8_t sentinel) {
    if (!frames_is_read(source, length) || !frames_is_there(dest, room)) {
        struct frames_written null = {0, FRAMES_NULL};
        return null;
    }
    return frames_c_decode_with_sentinel(frames_from(source), length, frames_to(dest), room, sentinel);
}

/* Decodes the bytes before the first sentinel, or all if there is none, within one buffer: the message is at its start then. The sentinel
 * and what follows are unchanged; used doesn't count the sentinel. FRAMES_INVALID, and the bytes before the sentinel may have changed. */
static inline struct frames_read frames_decode_in_place(uint8_t *buffer, size_t length, uint8_t sentinel) {
    if (!frames_is_read(buffer, length)) {
        struct frames_read null = {0, 0, FRAMES_NULL};
        return null;
    }
    return frames_c_decode_in_place(frames_to(buffer), length, sentinel);
}

/* A receiver between stretches. Its buffer is yours, the same at each call, and a stretch may have as many bytes as it has. */
static inline struct frames_receiver frames_receiver(uint8_t sentinel) { return frames_c_receiver(sentinel); }

/* Takes bytes up to the first event, which doesn't depend on the chunks that the stretch came in. Push the rest again. FRAMES_MORE if there
 * is no event: all bytes were used then. A message is the event.length bytes of the buffer from event.start on, until the next push.
 * FRAMES_TOO_LONG comes at the byte past the buffer's length, once a stretch. A message that isn't counted is FRAMES_DAMAGED; bytes after
 * the counted ones are ignored. */
static inline struct frames_event frames_push(struct frames_receiver *receiver, uint8_t *buffer, size_t room, const uint8_t *bytes,
                                              size_t length) {
    if (!receiver || !frames_is_there(buffer, room) || !frames_is_read(bytes, length)) {
        struct frames_event null = {0, 0, 0, 0, FRAMES_MISUSED};
        return null;
    }
    return frames_c_push(receiver, frames_to(buffer), room, frames_from(bytes), length);
}

/* The same for plain messages, which are at the buffer's start: event.start is 0. */
static inline struct frames_event frames_push_plain(struct frames_receiver *receiver, uint8_t *buffer, size_t room,
                                                    const uint8_t *bytes, size_t length) {
    if (!receiver || !frames_is_there(buffer, room) || !frames_is_read(bytes, length)) {
        struct frames_event null = {0, 0, 0, 0, FRAMES_MISUSED};
        return null;
    }
    return frames_c_push_plain(receiver, frames_to(buffer), room, frames_from(bytes), length);
}

/* A push of one byte, for an interrupt handler. Returns what was found. If that is FRAMES_MESSAGE, FRAMES_DAMAGED or FRAMES_TOO_LONG, the
 * event is that of frames_push of this byte; with FRAMES_MORE and FRAMES_MISUSED it stays as it was. */
static inline uint8_t frames_push_byte(struct frames_receiver *receiver, uint8_t *buffer, size_t room, uint8_t byte,
                                       struct frames_event *event) {
    if (!receiver || !event || !frames_is_there(buffer, room)) {
        return FRAMES_MISUSED;
    }
    return frames_c_push_byte(receiver, frames_to(buffer), room, byte, event);
}

/* The same for plain messages. */
static inline uint8_t frames_push_byte_plain(struct frames_receiver *receiver, uint8_t *buffer, size_t room, uint8_t byte,
                                             struct frames_event *event) {
    if (!receiver || !event || !frames_is_there(buffer, room)) {
        return FRAMES_MISUSED;
    }
    return frames_c_push_byte_plain(receiver, frames_to(buffer), room, byte, event);
}

/* Ends the stream, and begins a new one. Returns whether it ended inside a stretch that wasn't reported yet. The receiver is as new then,
 * over any buffer, also if it was misused. */
static inline bool frames_finish(struct frames_receiver *receiver) { return receiver && frames_c_finish(receiver); }

/* How many bytes have come since the last sentinel; 0 after FRAMES_TOO_LONG. */
static inline size_t frames_begun(const struct frames_receiver *receiver) {
    return receiver ? frames_c_begun(receiver) : 0;
}

/* A sender that hasn't written anything, and so begins with a sentinel, which ends what others may have left on the line. */
static inline struct frames_sender frames_sender(uint8_t sentinel) { return frames_c_sender(sentinel); }

/* Writes the bytes of one send of a counted message to dest: a sentinel if the last send didn't go out whole, the frame, a sentinel. Write
 * these to the line, and call frames_sent once all of them went out. If a write fails or takes too little, call nothing: the next send
 * then begins with a sentinel. FRAMES_NO_ROOM exactly if they don't fit; sender and dest are unchanged then. */
static inline struct frames_written frames_send(struct frames_sender *sender, const uint8_t *message, size_t length, uint8_t *dest,
                                                size_t room) {
    if (!sender || !frames_is_read(message, length) || !frames_is_there(dest, room)) {
        struct frames_written null = {0, FRAMES_NULL};
        return null;
    }
    return frames_c_send(sender, frames_from(message), length, frames_to(dest), room);
}

/* The same for a plain message. */
static inline struct frames_written frames_send_plain(struct frames_sender *sender, const uint8_t *message, size_t length,
                                                      uint8_t *dest, size_t room) {
    if (!sender || !frames_is_read(message, length) || !frames_is_there(dest, room)) {
        struct frames_written null = {0, FRAMES_NULL};
        return null;
    }
    return frames_c_send_plain(sender, frames_from(message), length, frames_to(dest), room);
}

/* Says that all bytes of the last send went out. */
static inline void frames_sent(struct frames_sender *sender) {
    if (sender) {
        frames_c_sent(sender);
    }
}

/* The CRC-32 of bytes, as in Ethernet, gzip and PNG; 0 if the pointer is null. */
static inline uint32_t frames_crc32(const uint8_t *bytes, size_t length) {
    return frames_is_read(bytes, length) ? frames_c_crc32(frames_from(bytes), length) : 0;
}

/* Writes the CRC-32 of the first length bytes of a buffer after them, as four bytes, the lowest first. Returns how many are to be sent.
 * FRAMES_NO_ROOM exactly if they don't fit; the buffer is unchanged then. */
static inline struct frames_written frames_seal(uint8_t *buffer, size_t room, size_t length) {
    if (!frames_is_there(buffer, room)) {
        struct frames_written null = {0, FRAMES_NULL};
        return null;
    }
    return frames_c_seal(frames_to(buffer), room, length);
}

/* How many bytes of a message precede its CRC-32. FRAMES_INVALID exactly if its last four bytes aren't that. */
static inline struct frames_written frames_unseal(const uint8_t *message, size_t length) {
    if (!frames_is_read(message, length)) {
        struct frames_written null = {0, FRAMES_NULL};
        return null;
    }
    return frames_c_unseal(frames_from(message), length);
}

#ifdef __cplusplus
#if defined(__GNUC__) && !defined(__clang__)
#pragma GCC diagnostic pop
#endif
}
#endif
#endif
