// The headers in C++: a message goes out and comes back; wire.h is compiled.
#include "frames.h"
#include "wire.h"
#include <cstring>

int main() {
    struct frames_sender sender = frames_sender(10);
    struct frames_receiver receiver = frames_receiver(10);
    uint8_t line[32], buffer[32];
    const uint8_t message[] = {'h', 'i', 10, 0};
    struct frames_written sent = frames_send(&sender, message, sizeof message, line, sizeof line);
    struct frames_event event = frames_push(&receiver, buffer, sizeof buffer, line, sent.length);
    return !(event.kind == FRAMES_MESSAGE && event.length == sizeof message &&
             std::memcmp(buffer + event.start, message, sizeof message) == 0);
}
