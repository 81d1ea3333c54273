/*
 * Reads a sif script: prints its counts, its errors and its canonical text.
 *
 *   cc examples/c/read.c -Iinclude -Ltarget/staticlib -lsif_c -o target/read        after make lib
 *   cc examples/c/read.c $(pkg-config --cflags --libs sif) -o target/read           after make install
 *   target/read examples/schedule.sif
 *
 * The exit status is 0 if the script reads without failure, 1 if it does not, and 2 if the file cannot be
 * opened. The calls take up to about 2.4 MB of stack: this main thread has 8 MiB on Linux; a thread that a
 * program makes for them must be given as much.
 */
#include <sif.h>
#include <stdio.h>
#include <stdlib.h>

/* The arrays that the calls are lent, in one piece of memory that this program owns. */
struct arrays {
    size_t tokens, symbols, errors;
    uint32_t *offs, *words, *heads, *loads, *symbol_words, *places, *reasons;
};

static struct arrays arrays_for(size_t len) {
    struct arrays a = {SIF_TOKENS_ROOM(len), SIF_SYMBOLS_ROOM(len), SIF_ERRORS_ROOM(len),
                       NULL, NULL, NULL, NULL, NULL, NULL, NULL};
    uint32_t *memory = malloc((4 * a.tokens + a.symbols + 2 * a.errors) * sizeof *memory);
    if (memory == NULL) {
        perror("read");
        exit(2);
    }
    a.offs = memory;
    a.words = a.offs + a.tokens;
    a.heads = a.words + a.tokens;
    a.loads = a.heads + a.tokens;
    a.symbol_words = a.loads + a.tokens;
    a.places = a.symbol_words + a.symbols;
    a.reasons = a.places + a.errors;
    return a;
}

/* The whole file, one byte more than the longest script at most: that one byte makes refusal 1. */
static size_t load(const char *name, uint8_t *script) {
    FILE *file = fopen(name, "rb");
    size_t len = file == NULL ? 0 : fread(script, 1, SIF_MAX_SCRIPT + 1, file);
    if (file == NULL || ferror(file)) {
        perror(name);
        exit(2);
    }
    fclose(file);
    return len;
}

static int refused(const char *name, uint32_t number, uint32_t kind, size_t offset) {
    printf("%s: refused %u %u %zu\n", name, number, kind, offset);
    return 1;
}

int main(int argc, char **argv) {
    static uint8_t script[SIF_MAX_SCRIPT + 1], text[SIF_TEXT_ROOM(SIF_MAX_SCRIPT)];
    size_t tokens, nodes, errors, early_line, early_pos, early_offset, early_value, offset, count;
    uint32_t flag, early_number, kind, number;
    if (argc != 2) {
        fprintf(stderr, "usage: read FILE\n");
        return 2;
    }
    const char *name = argv[1];
    size_t len = load(name, script);
    struct arrays a = arrays_for(len);

    number = sif_reading(script, len, a.offs, a.tokens, a.words, a.tokens, a.heads, a.tokens, a.loads,
                         a.tokens, a.symbol_words, a.symbols, a.places, a.errors, a.reasons, a.errors,
                         &tokens, &nodes, &errors, &flag, &early_line, &early_pos, &early_number,
                         &early_offset, &early_value, &kind, &offset);
    if (number != SIF_NONE)
        return refused(name, number, kind, offset);
    printf("%s: %zu tokens, %zu nodes, %zu errors\n", name, tokens, nodes, errors);
    /* Columns count from 0 in the library, and from 1 for people. */
    for (size_t i = 0; i < errors; i++)
        printf("%s:%u:%u: error %u\n", name, SIF_ERROR_LINE(a.places[i]),
               SIF_ERROR_COLUMN(a.places[i]) + 1, SIF_ERROR_NUMBER(a.reasons[i]));
    if (early_number != 0)
        printf("%s:%zu:%zu: the reading ended: error %u\n", name, early_line, early_pos + 1, early_number);
    if (flag != 0)
        return 1;

    number = sif_text(script, len, a.offs, a.tokens, a.words, a.tokens, a.heads, a.tokens, a.loads,
                      a.tokens, a.symbol_words, a.symbols, a.places, a.errors, a.reasons, a.errors,
                      text, SIF_TEXT_ROOM(len), &count, &kind, &offset);
    if (number != SIF_NONE)
        return refused(name, number, kind, offset);
    fwrite(text, 1, count, stdout);
    free(a.offs);
    return 0;
}
