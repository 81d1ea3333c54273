/*
 * Replays a fixed list of the Rust's answers (docs/COMPARISON.md) through the C interface:
 *
 *   replay tokens < crates/token_replay/stdin        prints crates/token_replay/stdout
 *   replay readings < crates/read_replay/stdin       prints crates/read_replay/stdout
 *
 * It is linked with the static or with the shared library. The arrays are full of junk before each call.
 */
#include <sif.h>
#include <stdio.h>
#include <stdlib.h>
#include <string.h>

/* The rooms of the listing program, by which the stored readings were made, and its longest script. */
enum { TOKENS = 4097, SYMBOLS = 8192, ERRORS = 1024, LISTED = 4096 };

static uint8_t script[SIF_MAX_SCRIPT + 1];
static uint32_t offs[TOKENS], words[TOKENS], heads[TOKENS], loads[TOKENS];
static uint32_t symbols[SYMBOLS], places[ERRORS], reasons[ERRORS];

static void fill(uint32_t *array, size_t len) {
    memset(array, 0xA5, len * sizeof *array);
}

static void junk(void) {
    fill(offs, TOKENS);
    fill(words, TOKENS);
    fill(heads, TOKENS);
    fill(loads, TOKENS);
    fill(symbols, SYMBOLS);
    fill(places, ERRORS);
    fill(reasons, ERRORS);
}

static void print_refusal(uint32_t number, uint32_t kind, size_t offset) {
    printf("refused %u %u %zu\n", number, kind, offset);
}

/* Line and column of an offset, by the rule of document 01. */
static void place(size_t len, size_t offset, size_t *line, size_t *column) {
    *line = 1;
    *column = 0;
    for (size_t i = 0; i < offset; i++) {
        *column += 1;
        if (script[i] == '\n') {
            *line += 1;
            *column = 0;
        }
    }
    if (offset == len && *column > 0) {
        *line += 1;
        *column = 0;
    }
}

static void print_token(size_t len, uint32_t off, uint32_t word) {
    uint32_t kind = SIF_TOKEN_KIND(word), from = off, to = off + SIF_TOKEN_LENGTH(word);
    size_t line, column;
    place(len, off, &line, &column);
    printf("%u:%zu:%zu:", kind, line, column);
    if (kind == SIF_TOKEN_STR) {
        from++;
        to--;
    }
    for (; kind != SIF_TOKEN_VAL && from < to; from++)
        printf("%02x", script[from]);
    if (kind == SIF_TOKEN_EOF)
        printf("454f46");
}

static void tell_tokens(size_t len) {
    uint32_t count, kind, offset;
    uint32_t number = sif_tokens(script, len, offs, TOKENS, words, TOKENS, &count, &kind, &offset);
    if (number != SIF_NONE) {
        print_refusal(number, kind, offset);
        return;
    }
    for (uint32_t i = 0; i < count; i++) {
        if (i > 0)
            putchar(' ');
        print_token(len, offs[i], words[i]);
    }
    putchar('\n');
}

static void print_words(const uint32_t *array, size_t count) {
    for (size_t i = 0; i < count; i++)
        printf(i > 0 ? " %u" : "%u", array[i]);
    putchar('\n');
}

static void tell_reading(size_t len) {
    size_t tokens, nodes, errors, early_line, early_pos, early_offset, early_value, offset;
    uint32_t flag, early_number, kind;
    uint32_t number =
        sif_reading(script, len, offs, TOKENS, words, TOKENS, heads, TOKENS, loads, TOKENS, symbols,
                    SYMBOLS, places, ERRORS, reasons, ERRORS, &tokens, &nodes, &errors, &flag, &early_line,
                    &early_pos, &early_number, &early_offset, &early_value, &kind, &offset);
    if (number != SIF_NONE) {
        print_refusal(number, kind, offset);
        return;
    }
    printf("%zu %zu %zu %u\n", tokens, nodes, errors, flag);
    print_words(heads, nodes);
    print_words(loads, nodes);
    for (size_t i = 0; i < errors; i++)
        printf("%u %u %u\n", SIF_ERROR_LINE(places[i]), SIF_ERROR_COLUMN(places[i]),
               SIF_ERROR_NUMBER(reasons[i]));
    print_words(reasons, errors);
    if (early_number == 0)
        printf("none\n");
    else
        printf("%zu %zu %u %zu %zu\n", early_line, early_pos, early_number, early_offset, early_value);
}

/* The next script of the list: its length in decimal, a newline, its bytes, a newline. */
static int next(size_t *len) {
    if (scanf("%zu", len) != 1)
        return 0;
    if (getchar() != '\n' || *len > sizeof script || fread(script, 1, *len, stdin) != *len ||
        getchar() != '\n') {
        fprintf(stderr, "replay: this is no list of scripts\n");
        exit(2);
    }
    return 1;
}

int main(int argc, char **argv) {
    int readings = argc == 2 && strcmp(argv[1], "readings") == 0;
    size_t len;
    while (next(&len)) {
        junk();
        if (!readings)
            tell_tokens(len);
        else if (len > LISTED)
            print_refusal(SIF_LONG_SCRIPT, 0, 0);
        else
            tell_reading(len);
    }
    return 0;
}
