/* What wire.h refuses: null pointers, rooms that are too short, declarations and types that can't be taken, refused memory. It brings the
 * library's memory itself, so that each allocation fails in turn and none is left over. */
#include <stdio.h>
#include <stdlib.h>
#include <string.h>
#include "wire.h"

struct block {
    size_t is_there;
    void *at;
};
static char nothing;
static long live, left = -1; /* blocks that are held; allocations before one fails, or -1 */

static struct block block_of(void *at) {
    struct block block;
    block.is_there = at != NULL;
    block.at = at ? at : &nothing;
    return block;
}
static int fails(void) { return left >= 0 && left-- == 0; }
struct block rattle_alloc(size_t length, size_t align);
struct block rattle_realloc(void *block, size_t length, size_t new_length, size_t align);
void rattle_dealloc(void *block);
struct block rattle_alloc(size_t length, size_t align) {
    void *at = fails() ? NULL : malloc(length ? length : align);
    live += at != NULL;
    return block_of(at);
}
struct block rattle_realloc(void *block, size_t length, size_t new_length, size_t align) {
    (void)length;
    return block_of(fails() ? NULL : realloc(block, new_length ? new_length : align));
}
void rattle_dealloc(void *block) {
    live--;
    free(block);
}

#define CHECK(it)                                                \
    do {                                                         \
        if (!(it)) {                                             \
            printf("line %d: %s\n", __LINE__, #it);              \
            exit(1);                                             \
        }                                                        \
    } while (0)

static const char declarations[] = "#[derive(Serialize, Deserialize)] pub enum Light { Dark, Lit(u8) }\n"
                                   "#[derive(Serialize, Deserialize)] pub struct Reading { pub level: i16, pub light: Light }\n"
                                   "#[derive(Serialize, Deserialize)] pub struct Bad { pub level: Leval }\n";
static const uint8_t stream[] = {0, 2, 0x29, 1, 0, 9, 9, 0, 2, 0x29};
static const char lines[] = "{\"value\":{\"level\":-21,\"light\":\"Dark\"}}\n{\"damaged\":{\"from\":5,\"to\":7}}\n";
static const char value[] = "{\"level\":-21,\"light\":\"Dark\"}\n";
static const uint8_t frame[] = {2, 0x29, 1, 0};

static struct wire_said reads(const char *type, struct wire_terms *terms, const uint8_t *bytes, size_t length, char *room, size_t room_length) {
    return wire_read(declarations, sizeof declarations - 1, type, strlen(type), terms, bytes, length, room, room_length);
}
static struct wire_said writes(const char *type, const char *line, uint8_t *room, size_t room_length) {
    struct wire_terms terms = {0, 0, 0, 0, 0, 0};
    return wire_write(declarations, sizeof declarations - 1, type, strlen(type), &terms, line, strlen(line), room, room_length);
}

static void nulls(void) {
    struct wire_terms terms = {0, 0, 0, 0, 0, 0};
    char room[8];
    CHECK(wire_read(NULL, 1, "u8", 2, &terms, stream, 1, room, 8).status == WIRE_NULL);
    CHECK(wire_read("", 0, NULL, 1, &terms, stream, 1, room, 8).status == WIRE_NULL);
    CHECK(wire_read("", 0, "u8", 2, NULL, stream, 1, room, 8).status == WIRE_NULL);
    CHECK(wire_read("", 0, "u8", 2, &terms, NULL, 1, room, 8).status == WIRE_NULL);
    CHECK(wire_read("", 0, "u8", 2, &terms, stream, 1, NULL, 8).status == WIRE_NULL);
    CHECK(wire_write(NULL, 1, "u8", 2, &terms, "7", 1, (uint8_t *)room, 8).status == WIRE_NULL);
    CHECK(wire_write("", 0, "u8", 2, &terms, NULL, 1, (uint8_t *)room, 8).status == WIRE_NULL);
    CHECK(wire_write("", 0, "u8", 2, &terms, "7", 1, NULL, 8).status == WIRE_NULL);
    /* a read that failed, whose -1 is handed on */
    CHECK(wire_read("", (size_t)-1, "u8", 2, &terms, stream, 1, room, 8).status == WIRE_NULL);
    CHECK(wire_read("", 0, "u8", 2, &terms, stream, (size_t)-1, room, 8).status == WIRE_NULL);
    CHECK(wire_write("", 0, "u8", 2, &terms, "7", (size_t)-1, (uint8_t *)room, 8).status == WIRE_NULL);
    /* nothing is nothing, also by a null pointer */
    CHECK(wire_read(NULL, 0, "u8", 2, &terms, NULL, 0, NULL, 0).status == WIRE_DONE);
    CHECK(wire_write(NULL, 0, "u8", 2, &terms, NULL, 0, NULL, 0).status == WIRE_DONE);
}

/* each length of the room: less than the text needs changes nothing */
static void rooms(void) {
    for (size_t n = 0; n <= sizeof lines; n++) {
        struct wire_terms terms = {0, 0, 0, 0, 0, 0};
        char *room = (char *)malloc(n + 1);
        memset(room, '#', n + 1);
        struct wire_said said = reads("Reading", &terms, stream, sizeof stream, room, n);
        CHECK(said.length == sizeof lines - 1);
        if (n < sizeof lines - 1) {
            CHECK(said.status == WIRE_NO_ROOM && said.used == 0);
            for (size_t i = 0; i <= n; i++)
                CHECK(room[i] == '#');
        } else {
            CHECK(said.status == WIRE_DONE && said.used == 8 && memcmp(room, lines, said.length) == 0);
        }
        CHECK(room[n] == '#');
        free(room);
    }
    for (size_t n = 0; n <= sizeof frame; n++) {
        uint8_t room[sizeof frame + 1];
        memset(room, '#', sizeof room);
        struct wire_said said = writes("Reading", value, room, n);
        CHECK(said.length == sizeof frame && said.status == (n < sizeof frame ? WIRE_NO_ROOM : WIRE_DONE));
        CHECK(n < sizeof frame ? room[0] == '#' : memcmp(room, frame, sizeof frame) == 0);
        CHECK(room[n] == '#');
    }
}

/* whether the text of an error begins so */
static int begins(struct wire_said said, const char *room, const char *with) {
    return said.length >= strlen(with) && memcmp(room, with, strlen(with)) == 0 && room[said.length - 1] == '\n';
}

static void wrongs(void) {
    struct wire_terms terms = {0, 0, 0, 0, 0, 0};
    char room[512];
    struct wire_said said = reads("Raeding", &terms, stream, sizeof stream, room, sizeof room);
    CHECK(said.status == WIRE_WRONG && said.used == 0 && begins(said, room, "`Raeding` isn't declared"));
    said = reads("Bad", &terms, stream, sizeof stream, room, sizeof room);
    CHECK(said.status == WIRE_WRONG && begins(said, room, "line 3: "));
    said = reads("", &terms, stream, sizeof stream, room, sizeof room);
    CHECK(said.status == WIRE_WRONG);
    said = wire_read("\xff", 1, "u8", 2, &terms, stream, 1, room, sizeof room);
    CHECK(said.status == WIRE_WRONG && begins(said, room, "the text of the declarations isn't UTF-8"));
    said = wire_read("", 0, "\xff", 1, &terms, stream, 1, room, sizeof room);
    CHECK(said.status == WIRE_WRONG && begins(said, room, "the type isn't UTF-8"));
    said = writes("Reading", "{\"level\":-21,\"light\":\"Dark\"}\n{\"level\":1}\n7", (uint8_t *)room, sizeof room);
    CHECK(said.status == WIRE_REFUSED && begins(said, room, "line 2: "));
}

/* a stretch of more than 65536 bytes, in two calls and in its middle */
static void inside(void) {
    struct wire_terms terms = {0, 0, 0, 0, 0, 0};
    static uint8_t bytes[70000];
    char room[512];
    memset(bytes, 1, sizeof bytes);
    struct wire_said said = reads("Reading", &terms, bytes, 65536, room, sizeof room);
    CHECK(said.status == WIRE_DONE && said.length == 0 && said.used == 0 && terms.inside == 0);
    said = reads("Reading", &terms, bytes, 65540, room, sizeof room);
    CHECK(said.used == 65540 && terms.inside != 0 && begins(said, room, "{\"too_long\":{\"from\":0,\"to\":65540}}"));
    said = reads("Reading", &terms, bytes, 100, room, sizeof room);
    CHECK(said.length == 0 && said.used == 100 && terms.inside != 0);
    bytes[3] = 0, bytes[5] = 0;
    said = reads("Reading", &terms, bytes, 100, room, sizeof room);
    CHECK(said.used == 6 && terms.inside == 0 && begins(said, room, "{\"damaged\":{\"from\":4,\"to\":5}}"));
    terms.ends = 1;
    said = reads("Reading", &terms, bytes, 3, room, sizeof room);
    CHECK(said.used == 3 && begins(said, room, "{\"cut\":{\"from\":0,\"to\":3}}"));
}

/* the deepest value, there and back, and one that is deeper: what takes the most stack, which `.ci/bindings` bounds */
static void deepest(void) {
    static const char node[] = "// message\nenum Node { End, More(Box<Node>) }\n";
    struct wire_terms terms = {0, 0, 0, 0, 0, 0};
    for (size_t depth = 58; depth <= 59; depth++) {
        char line[1024] = "", room[1024];
        uint8_t bytes[1024];
        for (size_t i = 0; i < depth; i++)
            strcat(line, "{\"More\":");
        strcat(line, "\"End\"");
        for (size_t i = 0; i < depth; i++)
            strcat(line, "}");
        struct wire_said said = wire_write(node, sizeof node - 1, "Node", 4, &terms, line, strlen(line), bytes, sizeof bytes);
        if (depth == 59) {
            CHECK(said.status == WIRE_REFUSED);
            continue;
        }
        CHECK(said.status == WIRE_DONE && said.length == depth + 3);
        said = wire_read(node, sizeof node - 1, "Node", 4, &terms, bytes, said.length, room, sizeof room);
        CHECK(said.status == WIRE_DONE && said.length == strlen(line) + strlen("{\"value\":}\n"));
        CHECK(memcmp(room + strlen("{\"value\":"), line, strlen(line)) == 0);
    }
}

static struct wire_said called(int call, char *room, size_t room_length) {
    struct wire_terms terms = {0, 0, 1, 0, 0, 1};
    return call == 0   ? reads("Reading", &terms, stream, sizeof stream, room, room_length)
           : call == 1 ? writes("Reading", value, (uint8_t *)room, room_length)
                       : writes("Reading", "[]\n", (uint8_t *)room, room_length);
}

/* each allocation fails in turn: the call says so, or does without it what it does else; nothing is left over */
static void memory(void) {
    char room[512], whole_room[512];
    long failed = 0;
    for (int call = 0; call < 3; call++) {
        struct wire_said whole = called(call, whole_room, sizeof whole_room);
        CHECK(whole.status == (call == 2 ? WIRE_REFUSED : WIRE_DONE));
        for (long n = 0;; n++) {
            left = n;
            struct wire_said said = called(call, room, sizeof room);
            int has_failed = left < 0;
            left = -1;
            CHECK(live == 0);
            if (said.status == WIRE_NO_MEMORY) {
                CHECK(has_failed && said.length == 0 && said.used == 0);
                failed++;
            } else {
                CHECK(said.status == whole.status && said.length == whole.length && said.used == whole.used && said.inside == whole.inside);
                CHECK(memcmp(room, whole_room, whole.length) == 0);
            }
            if (!has_failed) {
                break;
            }
        }
    }
    CHECK(failed > 0);
    printf("%ld allocations refused\n", failed);
}

int main(void) {
    nulls();
    rooms();
    wrongs();
    inside();
    deepest();
    memory();
    return 0;
}
