/* Without a C library: the three functions on memory that compilers call are all that is needed. Linked by -nostdlib; exits with 0
 * where a message comes back, on Linux on x86-64 or aarch64. */
#include "frames.h"

void *memmove(void *to, const void *from, size_t n) {
    unsigned char *t = to;
    const unsigned char *f = from;
    if (t < f)
        for (size_t i = 0; i < n; i++)
            t[i] = f[i];
    else
        while (n-- > 0)
            t[n] = f[n];
    return to;
}
void *memcpy(void *to, const void *from, size_t n) { return memmove(to, from, n); }
void *memset(void *to, int byte, size_t n) {
    unsigned char *t = to;
    for (size_t i = 0; i < n; i++)
        t[i] = (unsigned char)byte;
    return to;
}

static int test(void) {
    static uint8_t message[700], line[800], buffer[720];
    for (size_t i = 0; i < sizeof message; i++)
        message[i] = (uint8_t)(i % 97);
    struct frames_sender sender = frames_sender(10);
    struct frames_receiver receiver = frames_receiver(10);
    struct frames_written sent = frames_send(&sender, message, sizeof message, line, sizeof line);
    if (sent.status != FRAMES_OK)
        return 1;
    for (size_t i = 0; i < sent.length; i++) {
        struct frames_event event = frames_push(&receiver, buffer, sizeof buffer, line + i, 1);
        if (event.kind != (i + 1 == sent.length ? FRAMES_MESSAGE : FRAMES_MORE))
            return 2;
        if (event.kind == FRAMES_MESSAGE)
            for (size_t k = 0; k < sizeof message; k++)
                if (event.length != sizeof message || buffer[event.start + k] != message[k])
                    return 3;
    }
    return 0;
}

#if defined(__x86_64__)
__attribute__((force_align_arg_pointer))
#endif
void _start(void) {
    long status = test();
#if defined(__x86_64__)
    __asm__ volatile("syscall" ::"a"(60), "D"(status));
#elif defined(__aarch64__)
    register long number __asm__("x8") = 93;
    register long first __asm__("x0") = status;
    __asm__ volatile("svc 0" ::"r"(number), "r"(first));
#endif
    for (;;) {
    }
}
