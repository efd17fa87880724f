/* Typed messages as lines of JSON, and lines of JSON as frames, by the declarations of the types in Rust: for C99 and later and C++.
 * The library behind it (libwire_c.a) is proved; this header isn't.
 *
 * Each call stands alone. It is told the declarations, as a text, and the words of a type (`Reading`, `[u8; 4]`); it takes memory by
 * malloc, frees all of it before it returns, and keeps nothing: there is nothing to create, to free, or to use too late. What a stream
 * needs from call to call is yours: the bytes that a call left over, and struct wire_terms.
 *
 * A line of JSON is what the program `wire` prints: {"value":..}, {"damaged":{"from":..,"to":..}}, `too_deep`, `too_long`, `cut`. Places
 * are counted from the first byte that the call was handed. A stretch has at most 65536 bytes.
 *
 * No call prints, waits, stops the process, or has state of its own. Calls on different structs and buffers may run at the same time.
 * None may be made from a signal handler, since malloc may not.
 * A thread that calls needs 128 kB of stack: a call takes up to some 90 kB, as measured; more if thousands of types hold one another in a
 * row.
 *
 * What the caller must keep to, and nothing can check:
 * - a pointer that isn't null points to as many bytes as its length says, which may be read, and written if it isn't to const;
 * - what is written overlaps nothing else that the call is handed;
 * - malloc, realloc and free are of one allocator, which aligns a block of 2^k bytes or a multiple to 2^k, up to 16.
 * A null pointer is allowed if its length is 0; otherwise the call returns WIRE_NULL. */
#ifndef WIRE_H
#define WIRE_H

#if !defined(__cplusplus) && defined(__STRICT_ANSI__) && (!defined(__STDC_VERSION__) || __STDC_VERSION__ < 199901L)
#error "wire.h: C99 or later is needed: -std=c99"
#endif

#include <stddef.h>
#include <stdint.h>

#ifdef __cplusplus
#define WIRE_AS(type, pointer) static_cast<type>(pointer)
extern "C" {
#else
#define WIRE_AS(type, pointer) ((type)(pointer))
#endif

/* The status of a result. */
enum wire_status {
    WIRE_DONE = 0,
    WIRE_NO_ROOM = 1,   /* the text has `length` bytes, and the room fewer: nothing changed, so call it again with as much room */
    WIRE_WRONG = 2,     /* the declarations or the type can't be taken: the text says why, in lines */
    WIRE_REFUSED = 3,   /* wire_write alone: some lines aren't of the type: the text says why, in lines `line K: ..`; nothing is written */
    WIRE_NO_MEMORY = 4, /* malloc gave none: nothing changed */
    WIRE_NULL = 255     /* a pointer is null, and its length isn't 0; or a length is that of a read that failed (-1): nothing changed */
};

/* How frames are read or written. A flag is set if it isn't 0; {0} is the delimiter 0 and no flag. */
struct wire_terms {
    uint8_t sentinel; /* the byte that ends each frame, with which its bytes are XORed */
    uint8_t strict;   /* only the frame that writing the value makes is a value */
    uint8_t crc32;    /* the CRC-32 of a message follows it */
    uint8_t hex;      /* bytes in messages look as hexadecimal text */
    uint8_t inside;   /* the stream begins inside a stretch that was reported as too long; wire_read sets it for the next call */
    uint8_t ends;     /* the stream ends with these bytes: an unfinished stretch is reported as cut */
};

/* The result of a call: how many bytes the text has, which are at the start of the room unless that has too few; how many bytes of the stream
 * are done with, 0 unless wire_read returns WIRE_DONE; the status. */
struct wire_said {
    size_t length;
    size_t used;
    uint8_t status;
    uint8_t inside;
};

/* ---- The functions of the library. No pointer may be null here, also if its length is 0: call those below in their place. ---- */

struct wire_said wire_c_read(const uint8_t *declarations, size_t declarations_length, const uint8_t *type, size_t type_length,
                             const struct wire_terms *terms, const uint8_t *stream, size_t length, uint8_t *room, size_t room_length);
struct wire_said wire_c_write(const uint8_t *declarations, size_t declarations_length, const uint8_t *type, size_t type_length,
                              const struct wire_terms *terms, const uint8_t *lines, size_t length, uint8_t *room, size_t room_length);

/* ---- What to call. Each looks for null pointers and calls the function of its name. ---- */

/* Whether one of these is null and isn't empty, or has a length that no memory has. */
static inline int wire_is_null(const void *declarations, size_t declarations_length, const void *type, size_t type_length, const void *terms,
                               const void *from, size_t length, const void *room, size_t room_length) {
    return (!declarations && declarations_length != 0) || (!type && type_length != 0) || !terms || (!from && length != 0) ||
           (!room && room_length != 0) || (declarations_length | type_length | length | room_length) > SIZE_MAX / 2;
}

/* A pointer that isn't null, in place of one to nothing. */
static inline const uint8_t *wire_from(const void *bytes) {
    static const uint8_t nothing = 0;
    return bytes ? WIRE_AS(const uint8_t *, bytes) : &nothing;
}
static inline uint8_t *wire_to(void *bytes) {
    static uint8_t nothing; /* never written: its length is 0 */
    return bytes ? WIRE_AS(uint8_t *, bytes) : &nothing;
}

/* Reads a stream of frames, and writes a line of JSON for each result to the start of the room. Pass each chunk after the bytes that the
 * call before left over (from `used` on). With WIRE_DONE it sets terms->inside for the next call. */
static inline struct wire_said wire_read(const char *declarations, size_t declarations_length, const char *type, size_t type_length,
                                         struct wire_terms *terms, const uint8_t *stream, size_t length, char *room, size_t room_length) {
    struct wire_said said = {0, 0, WIRE_NULL, 0};
    if (wire_is_null(declarations, declarations_length, type, type_length, terms, stream, length, room, room_length))
        return said;
    said = wire_c_read(wire_from(declarations), declarations_length, wire_from(type), type_length, terms, wire_from(stream), length,
                       wire_to(room), room_length);
    if (said.status == WIRE_DONE)
        terms->inside = said.inside;
    return said;
}

/* Writes the frame of each line of JSON, with the delimiter that ends it, to the start of the room. Write a delimiter to the line before the
 * first frame, since an earlier sender may have left a part of one. A line is a value, or {"value":..} as wire_read prints it. If it can be
 * both, as of a type with a field `value`, it is the latter: for one meaning write it as [..] of the type `[T; 1]`, which has the same
 * bytes. */
static inline struct wire_said wire_write(const char *declarations, size_t declarations_length, const char *type, size_t type_length,
                                          const struct wire_terms *terms, const char *lines, size_t length, uint8_t *room,
                                          size_t room_length) {
    struct wire_said said = {0, 0, WIRE_NULL, 0};
    if (wire_is_null(declarations, declarations_length, type, type_length, terms, lines, length, room, room_length))
        return said;
    return wire_c_write(wire_from(declarations), declarations_length, wire_from(type), type_length, terms, wire_from(lines), length,
                        wire_to(room), room_length);
}

#ifdef __cplusplus
}
#endif

#endif
