/* Says where points lie in a field: locate FIELD < POINTS. A point is two whole numbers, in centimetres. Prints a line for each. */
#include "fieldtext.h"
#include <stdio.h>

int main(int count, char **words) {
    static const char *const place[] = {"outside", "inside", "edge"};
    static uint8_t text[(1 << 24) + 1]; /* a valid text has a byte less */
    static uint8_t table[FIELDTEXT_TABLE];
    static int32_t corners[FIELDTEXT_CORNERS];
    FILE *file = count == 2 ? fopen(words[1], "rb") : NULL;
    if (!file)
        return fputs("usage: locate FIELD < POINTS\n", stderr), 2;
    size_t length = fread(text, 1, sizeof text, file);
    uint8_t refusal;
    size_t sides = fieldtext_corners(text, length, table, corners, &refusal);
    if (refusal)
        return printf("refused %u\n", refusal), 1;
    printf("%zu corners, the last at %d %d\n", sides, corners[2 * sides - 2], corners[2 * sides - 1]);
    for (int x, y; scanf("%d %d", &x, &y) == 2;) {
        size_t nearest;
        unsigned answer = fieldtext_locate(text, length, x, y, table, corners, &nearest);
        if (answer <= FIELDTEXT_EDGE)
            printf("%d %d: %s, corner %zu\n", x, y, place[answer], nearest);
        else
            printf("%d %d: refused %u\n", x, y, answer);
    }
    return 0;
}
