/* What frames are, said anew and slowly, from the block grammar alone: for comparison. */
#include <stdbool.h>
#include <stddef.h>
#include <stdint.h>
#include <string.h>

struct oracle_message {
    bool frame;    /* whether the bytes are one or more blocks */
    size_t length; /* how many bytes of a message they decide */
    uint8_t *bytes;
};

/* Reads nonzero bytes, block by block: a code c, and then c - 1 bytes; a zero between two blocks, but nothing behind a code 255. */
static struct oracle_message oracle_read(const uint8_t *p, size_t n, uint8_t *out) {
    struct oracle_message m = {n > 0, 0, out};
    size_t i = 0;
    bool owed = false;
    while (i < n) {
        unsigned code = p[i++];
        if (owed)
            out[m.length++] = 0;
        for (unsigned k = 1; k < code; k++) {
            if (i == n) {
                m.frame = false;
                return m;
            }
            out[m.length++] = p[i++];
        }
        owed = code != 255;
    }
    return m;
}

/* Writes the shortest frame: runs of up to 254 nonzero bytes. */
static size_t oracle_write(const uint8_t *p, size_t n, uint8_t *out) {
    size_t at = 0, code = 0;
    out[at++] = 1;
    for (size_t i = 0; i < n; i++) {
        if (out[code] == 255) { /* a full block is closed by the next byte */
            code = at;
            out[at++] = 1;
        }
        if (p[i] == 0) {
            code = at;
            out[at++] = 1;
        } else {
            out[at++] = p[i];
            out[code]++;
        }
    }
    return at;
}

/* Writes a length as postcard does: seven bits a byte, the lowest first, each but the last with its high bit set. */
static size_t oracle_count(size_t n, uint8_t *out) {
    size_t at = 0;
    for (; n >= 128; n /= 128)
        out[at++] = (uint8_t)(n % 128 + 128);
    out[at++] = (uint8_t)n;
    return at;
}

/* Reads it in front of a message, and leaves the bytes that it counts; false where there is none, or fewer bytes. A length has at most
 * ten bytes, and is below 2^64. */
static bool oracle_counted(struct oracle_message *m) {
    unsigned __int128 n = 0;
    size_t at = 0;
    for (;; at++) {
        if (at == m->length || at == 10)
            return false;
        n += (unsigned __int128)(m->bytes[at] % 128) << 7 * at;
        if (m->bytes[at] < 128)
            break;
    }
    if (n >> 64 != 0 || n > m->length - (at + 1))
        return false;
    m->bytes += at + 1;
    m->length = (size_t)n;
    return true;
}
