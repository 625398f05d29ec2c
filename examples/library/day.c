/* Judges standard input by a book: day BOOK < STREAM. Prints a line for each entry. */
#include "fieldtext.h"
#include <stdio.h>
#include <stdlib.h>

struct bytes {
    uint8_t *at;
    size_t length;
};

static struct bytes all_of(FILE *file) {
    struct bytes b = {malloc(1), 0};
    size_t room = 1;
    size_t got;
    while (b.at && (got = fread(b.at + b.length, 1, room - b.length, file)) > 0) {
        b.length += got;
        if (b.length == room)
            b.at = realloc(b.at, room *= 2);
    }
    return b;
}

static uint64_t little(const uint8_t *at, int bytes) {
    uint64_t n = 0;
    while (bytes-- > 0)
        n = n << 8 | at[bytes];
    return n;
}

int main(int count, char **words) {
    static const char *const word[] = {"valid", "invalid", "refused"};
    static uint8_t table[FIELDTEXT_TABLE];
    static uint8_t work[64 * 96]; /* 64 levels */
    FILE *file = count == 2 ? fopen(words[1], "rb") : NULL;
    if (!file)
        return fputs("usage: day BOOK < STREAM\n", stderr), 2;
    struct bytes book = all_of(file);
    struct bytes stream = all_of(stdin);
    size_t room = 2;
    uint8_t *out = malloc(FIELDTEXT_ENTRY * room);
    if (!book.at || !stream.at || !out)
        return fputs("no memory\n", stderr), 2;
    unsigned refusal = fieldtext_load(book.at, book.length, table);
    if (refusal)
        return printf("refused %u %zu, read 0\n", refusal, fieldtext_book_line(book.at, book.length)), 0;
    size_t made = fieldtext_judge_table(table, stream.at, stream.length, 4096, work, sizeof work, out, FIELDTEXT_ENTRY * room);
    if (made > room) { /* the first two are written; ask again with room for all */
        out = realloc(out, FIELDTEXT_ENTRY * made);
        if (!out)
            return fputs("no memory\n", stderr), 2;
        fieldtext_judge_table(table, stream.at, stream.length, 4096, work, sizeof work, out, FIELDTEXT_ENTRY * made);
    }
    for (size_t i = 0; i < made; i++) {
        const uint8_t *entry = out + FIELDTEXT_ENTRY * i;
        printf("%s %u %llu, read %llu\n", word[entry[0]], entry[1], (unsigned long long)little(entry + 4, 4), (unsigned long long)little(entry + 8, 8));
    }
    return 0;
}
