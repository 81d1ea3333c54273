/*
 * How many bytes each call clears, and how many are to be 0 after it: no byte is to be cleared twice. A
 * line for each call: what it is, its refusal, the bytes that are to be 0, the bytes that were cleared.
 * What is cleared is counted at memset, to which the library's clearing is compiled; it is linked with the
 * static library and -Wl,--wrap=memset.
 */
#include <sif.h>
#include <stdio.h>
#include <string.h>

enum { ROOM = 65536, SYMBOLS = 131072, TEXT = 262144 };

static uint32_t offs[ROOM], words[ROOM], heads[ROOM], loads[ROOM];
static uint32_t symbols[SYMBOLS], places[ROOM], reasons[ROOM];
static uint8_t text[TEXT];

static size_t cleared;

void *__real_memset(void *start, int byte, size_t len);
void *__wrap_memset(void *start, int byte, size_t len);

void *__wrap_memset(void *start, int byte, size_t len) {
    cleared += len;
    return __real_memset(start, byte, len);
}

static const uint8_t *bytes(const char *script) {
    return (const uint8_t *)script;
}

static void tell(const char *call, uint32_t refusal, size_t due) {
    printf("%s %u %zu %zu\n", call, (unsigned)refusal, due, cleared);
}

static void tokens(const char *script, size_t room) {
    uint32_t count, kind, offset;
    cleared = 0;
    uint32_t refusal =
        sif_tokens(bytes(script), strlen(script), offs, room, words, room, &count, &kind, &offset);
    tell("tokens", refusal, 8 * (room - count));
}

static void reading(const char *script, size_t room) {
    size_t count, nodes, errors, line, pos, early, value, offset;
    uint32_t flag, number, kind;
    cleared = 0;
    uint32_t refusal = sif_reading(bytes(script), strlen(script), offs, ROOM, words, ROOM, heads, room,
                                   loads, room, symbols, SYMBOLS, places, ROOM, reasons, ROOM, &count,
                                   &nodes, &errors, &flag, &line, &pos, &number, &early, &value, &kind,
                                   &offset);
    size_t used = 8 * count + 8 * nodes + 8 * errors;
    tell("reading", refusal, 16 * (size_t)ROOM + 8 * room + 4 * (size_t)SYMBOLS - used);
}

/* The counts of what is read are those of a reading; a text call does not say them. */
static void written(const char *script, size_t room, size_t used) {
    size_t count, offset;
    uint32_t kind;
    cleared = 0;
    uint32_t refusal = sif_text(bytes(script), strlen(script), offs, ROOM, words, ROOM, heads, ROOM, loads,
                                ROOM, symbols, SYMBOLS, places, ROOM, reasons, ROOM, text, room, &count,
                                &kind, &offset);
    tell("text", refusal, 24 * (size_t)ROOM + 4 * (size_t)SYMBOLS + room - used - count);
}

int main(void) {
    tokens("var a = 1;", ROOM);
    tokens("var a = 1;", 4);
    tokens("var a = 1; //", ROOM);
    reading("var a = 1;", ROOM);
    reading("var a = 1; //", ROOM);
    reading("(1)(2);", ROOM);
    reading("var a = 1;", 1);
    written("var a = 1;", TEXT, 8 * 6 + 8 * 3);
    written("var var;", TEXT, 0);
    written("var a = 1;", 4, 0);
    return 0;
}
