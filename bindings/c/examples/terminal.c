/* Sends sealed messages over a pseudo-terminal on which a write breaks off, a code and a letter are changed and a message is too long,
 * and prints what the other side hears. Its messages are counted, so of the one that breaks off none is heard. */
#define _XOPEN_SOURCE 600
#define _DEFAULT_SOURCE
#include "frames.h"
#include <errno.h>
#include <fcntl.h>
#include <stdio.h>
#include <stdlib.h>
#include <string.h>
#include <sys/wait.h>
#include <termios.h>
#include <unistd.h>

/* Writes all, or as many bytes as the line takes before it breaks. */
static bool put(int line, const uint8_t *bytes, size_t length, size_t breaks) {
    size_t whole = length < breaks ? length : breaks;
    for (size_t at = 0; at < whole;) {
        ssize_t n = write(line, bytes + at, whole - at);
        if (n < 0 && errno == EINTR)
            continue;
        if (n <= 0)
            return false;
        at += (size_t)n;
    }
    return whole == length;
}

static void talk(int line) {
    static const struct {
        const char *text;
        size_t length;
    } all[] = {{"first", 5}, {"breaks\0off", 10}, {"behind it", 9}, {"a code of this is changed", 25}, {"a letter is, too", 16},
               {"longer than what the other side has room for", 44}, {"last", 4}};
    struct frames_sender sender = frames_sender(0);
    uint8_t message[64], out[64];
    for (size_t i = 0; i < sizeof all / sizeof *all; i++) {
        memcpy(message, all[i].text, all[i].length);
        struct frames_written sealed = frames_seal(message, sizeof message, all[i].length);
        struct frames_written sent = frames_send(&sender, message, sealed.length, out, sizeof out);
        if (sealed.status != FRAMES_OK || sent.status != FRAMES_OK)
            exit(3);
        if (i == 3)
            out[0] += 9;
        if (i == 4)
            out[4] ^= 32;
        if (put(line, out, sent.length, i == 1 ? 8 : SIZE_MAX)) /* `breaks` would be heard, if it were plain */
            frames_sent(&sender);
    }
    struct frames_written cut = frames_send(&sender, (const uint8_t *)"never ends", 10, out, sizeof out);
    put(line, out, cut.length, 4);
}

static void hear(const uint8_t *message, size_t length) {
    struct frames_written sealed = frames_unseal(message, length);
    if (sealed.status == FRAMES_OK)
        printf("message %.*s\n", (int)sealed.length, (const char *)message);
    else
        printf("not as it was sent, %zu bytes\n", length);
}

static int listen_to(int line) {
    uint8_t buffer[32], piece[7];
    struct frames_receiver receiver = frames_receiver(0);
    for (;;) {
        ssize_t n = read(line, piece, sizeof piece);
        if (n < 0 && errno == EINTR)
            continue;
        if (n <= 0)
            break; /* it hung up */
        for (size_t at = 0; at < (size_t)n;) {
            struct frames_event event = frames_push(&receiver, buffer, sizeof buffer, piece + at, (size_t)n - at);
            at += event.used;
            switch (event.kind) {
            case FRAMES_MORE: break;
            case FRAMES_MESSAGE: hear(buffer + event.start, event.length); break;
            case FRAMES_DAMAGED: printf("damaged, %zu bytes\n", event.stretch); break;
            case FRAMES_TOO_LONG: printf("too long\n"); break;
            default: return 3;
            }
        }
    }
    if (frames_finish(&receiver))
        printf("cut\n");
    return 0;
}

int main(void) {
    int here = posix_openpt(O_RDWR | O_NOCTTY);
    if (here < 0 || grantpt(here) || unlockpt(here))
        return 2;
    int there = open(ptsname(here), O_RDWR | O_NOCTTY);
    struct termios plain;
    if (there < 0 || tcgetattr(there, &plain))
        return 2;
    cfmakeraw(&plain);
    if (tcsetattr(there, TCSANOW, &plain))
        return 2;
    pid_t child = fork();
    if (child < 0)
        return 2;
    if (child == 0) {
        close(here);
        talk(there);
        _exit(0);
    }
    close(there);
    int status = listen_to(here);
    int ended = 0;
    waitpid(child, &ended, 0);
    close(here);
    return status != 0 ? status : ended;
}
