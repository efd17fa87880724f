/* An interrupt handler takes bytes one by one: it finds each message as its last byte comes, and hands it on by a ring. Here a loop
 * over a line stands for the interrupts; each byte costs the handler a store, and the last of a stretch its decoding. */
#include "frames.h"
#include <stdio.h>
#include <string.h>

/* ---- What the interrupt handler and the program share: a ring of messages, one writer and one reader. On a device the two places
 * are to be atomic, or written with interrupts off; what the handler lost is counted, not hidden. ---- */
enum { SLOTS = 4, ROOM = 32 };
static struct {
    uint8_t bytes[ROOM];
    size_t length;
} ring[SLOTS];
static volatile unsigned written, taken, lost, damaged;

static struct frames_receiver receiver; /* {0}: the sentinel is zero */
static uint8_t buffer[ROOM];

static void on_byte(uint8_t byte) {
    struct frames_event event;
    switch (frames_push_byte(&receiver, buffer, sizeof buffer, byte, &event)) {
    case FRAMES_MORE: return;
    case FRAMES_MESSAGE:
        if (written - taken == SLOTS) {
            lost++;
            return;
        }
        memcpy(ring[written % SLOTS].bytes, buffer + event.start, event.length);
        ring[written % SLOTS].length = event.length;
        written++;
        return;
    default: damaged++; return;
    }
}

static void take_all(void) {
    for (; taken != written; taken++)
        printf("%.*s\n", (int)ring[taken % SLOTS].length, (const char *)ring[taken % SLOTS].bytes);
}

int main(void) {
    static const char *const texts[] = {"one", "two", "breaks off", "three", "four", "five", "six", "seven"};
    struct frames_sender sender = frames_sender(0);
    uint8_t out[64];
    for (size_t i = 0; i < sizeof texts / sizeof *texts; i++) {
        struct frames_written send = frames_send(&sender, (const uint8_t *)texts[i], strlen(texts[i]), out, sizeof out);
        if (send.status != FRAMES_OK)
            return 1;
        size_t goes_out = i == 2 ? 6 : send.length;
        for (size_t k = 0; k < goes_out; k++)
            on_byte(out[k]); /* the interrupt */
        if (goes_out == send.length)
            frames_sent(&sender);
        if (i < 2)
            take_all();
    }
    take_all();
    printf("damaged %u, lost %u\n", damaged, lost);
    return 0;
}
