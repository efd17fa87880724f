/* A device that can't link the library: frames over a line that it reads and writes byte by byte. Here the line is an array, whose sends
 * are interrupted after some bytes; on a device `put` waits for its UART, and the loop is its interrupt handler. */
#include "frames_small.h"
#include <stdio.h>

static uint8_t line[128];
static size_t length, ends;

static bool put(void *uart, uint8_t byte) {
    (void)uart;
    if (length == ends) return false; /* nothing more goes out */
    line[length++] = byte;
    return true;
}

int main(void) {
    static uint8_t message[16] = "21.5 C"; /* room for a sum */
    struct frames_small_sender sender = {0};
    ends = 5;
    frames_small_send(&sender, put, NULL, (const uint8_t *)"interrupted", 11); /* false: nothing is to be done */
    ends = sizeof line;
    frames_small_send(&sender, put, NULL, (const uint8_t *)"what comes next", 15);
    frames_small_send(&sender, put, NULL, message, frames_small_seal(message, sizeof message, 6));

    uint8_t buffer[24];
    struct frames_small_receiver receiver = {0};
    for (size_t i = 0; i < length; i++) {
        struct frames_small_event event;
        switch (frames_small_push_byte(&receiver, buffer, sizeof buffer, line[i], &event)) {
        case FRAMES_SMALL_MESSAGE: {
            size_t n = event.length;
            if (frames_small_unseal(buffer + event.start, n)) printf("sealed: %.*s\n", (int)(n - 4), (char *)buffer + event.start);
            else printf("%.*s\n", (int)n, (char *)buffer + event.start);
            break;
        }
        case FRAMES_SMALL_DAMAGED: printf("damaged, %u bytes\n", (unsigned)event.stretch); break;
        case FRAMES_SMALL_TOO_LONG: printf("longer than the buffer\n"); break;
        }
    }
    return 0;
}
