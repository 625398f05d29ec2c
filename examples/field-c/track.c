/* Says where the points of a track lie in a field: track FIELD < POINTS. A point is two whole numbers, in centimetres. All points are handed
   over in one call, which reads the field's text once. Prints a line for each. */
#include "fieldtext.h"
#include <stdio.h>
#include <stdlib.h>

struct track {
    struct fieldtext_track_point *at;
    size_t length;
};

static struct track all_of(FILE *file) {
    size_t room = 64;
    struct track t = {malloc(room * sizeof *t.at), 0};
    for (int x, y; t.at && fscanf(file, "%d %d", &x, &y) == 2;) {
        t.at[t.length++] = (struct fieldtext_track_point){.x = x, .y = y};
        if (t.length == room)
            t.at = realloc(t.at, (room *= 2) * sizeof *t.at);
    }
    return t;
}

int main(int count, char **words) {
    static const char *const place[] = {"outside", "inside", "edge"};
    static uint8_t text[(1 << 24) + 1]; /* a valid text has a byte less */
    static uint8_t table[FIELDTEXT_TABLE];
    static int32_t corners[FIELDTEXT_CORNERS];
    FILE *file = count == 2 ? fopen(words[1], "rb") : NULL;
    if (!file)
        return fputs("usage: track FIELD < POINTS\n", stderr), 2;
    size_t length = fread(text, 1, sizeof text, file);
    struct track track = all_of(stdin);
    if (!track.at)
        return fputs("no memory\n", stderr), 2;
    unsigned refusal = fieldtext_track(text, length, track.at, track.length, table, corners);
    if (refusal)
        return printf("refused %u\n", refusal), 1;
    for (size_t i = 0; i < track.length; i++) {
        const struct fieldtext_track_point *point = &track.at[i];
        if (point->answer <= FIELDTEXT_EDGE)
            printf("%d %d: %s, corner %u\n", point->x, point->y, place[point->answer], point->nearest);
        else
            printf("%d %d: refused %u\n", point->x, point->y, point->answer);
    }
    return 0;
}
