/* Reads a stream of a device's typed messages in chunks, and writes frames of lines of JSON. */
#include <stdio.h>
#include <string.h>
#include "wire.h"

static const char declarations[] = "#[derive(Serialize, Deserialize)]\n"
                                   "pub enum Light { Dark, Lit(u8) }\n"
                                   "#[derive(Serialize, Deserialize)]\n"
                                   "pub struct Reading { pub level: i16, pub light: Light }\n";
static const char type[] = "Reading";

int main(void) {
    struct wire_terms terms = {0};
    uint8_t frames[64], buffer[65536 + 5];
    char room[4096];
    size_t kept = 0;

    const char lines[] = "{\"level\":-21,\"light\":{\"Lit\":5}}\n{\"level\":300,\"light\":\"Dark\"}\n";
    struct wire_said said = wire_write(declarations, strlen(declarations), type, strlen(type), &terms, lines, strlen(lines), frames, sizeof frames);
    printf("%zu bytes of frames\n", said.length);
    size_t length = said.length;
    frames[length++] = 9; /* a send that is interrupted; the next one begins with a delimiter */
    frames[length++] = 0;
    said = wire_write(declarations, strlen(declarations), type, strlen(type), &terms, lines, strlen(lines), frames + length, sizeof frames - length);
    length += said.length;

    for (size_t at = 0; at < length;) { /* in chunks of 5 bytes, each after what was left over */
        size_t n = length - at < 5 ? length - at : 5;
        memcpy(buffer + kept, frames + at, n);
        at += n;
        terms.ends = at == length;
        said = wire_read(declarations, strlen(declarations), type, strlen(type), &terms, buffer, kept + n, room, sizeof room);
        if (said.status != WIRE_DONE)
            return 1;
        printf("%.*s", (int)said.length, room);
        kept = kept + n - said.used;
        memmove(buffer, buffer + said.used, kept);
    }

    said = wire_write(declarations, strlen(declarations), type, strlen(type), &terms, "{\"level\":99999}\n", 16, frames, sizeof frames);
    printf("%d: %.*s", said.status, (int)said.length, (const char *)frames);
    said = wire_read(declarations, strlen(declarations), "Raeding", 7, &terms, buffer, 0, room, sizeof room);
    printf("%d: %.*s", said.status, (int)said.length, room);
    return 0;
}
