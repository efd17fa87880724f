/* What a device pays: each call that it makes, as a function of its own, so that `.ci/small` can print how many bytes of code it is. */
#include "frames_small.h"
uint8_t receive(struct frames_small_receiver *r, uint8_t *buffer, size_t room, uint8_t byte, struct frames_small_event *e);
uint8_t receive_plain(struct frames_small_receiver *r, uint8_t *buffer, size_t room, uint8_t byte, struct frames_small_event *e);
bool send(struct frames_small_sender *s, frames_small_put *put, void *line, const uint8_t *message, size_t length);
uint32_t sum(const uint8_t *bytes, size_t length);
#if PART & 1
uint8_t receive(struct frames_small_receiver *r, uint8_t *buffer, size_t room, uint8_t byte, struct frames_small_event *e) {
    return frames_small_push_byte(r, buffer, room, byte, e);
}
#endif
#if PART & 2
bool send(struct frames_small_sender *s, frames_small_put *put, void *line, const uint8_t *message, size_t length) {
    return frames_small_send(s, put, line, message, length);
}
#endif
#if PART & 4
uint32_t sum(const uint8_t *bytes, size_t length) { return frames_small_crc32(bytes, length); }
#endif
#if PART & 8
uint8_t receive_plain(struct frames_small_receiver *r, uint8_t *buffer, size_t room, uint8_t byte, struct frames_small_event *e) {
    return frames_small_push_byte_plain(r, buffer, room, byte, e);
}
#endif
unsigned char memory[sizeof(struct frames_small_receiver)];
