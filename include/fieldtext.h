/* The field text reader for programs in C and C++: docs/LIBRARY.md. */
#ifndef FIELDTEXT_H
#define FIELDTEXT_H

#include <stddef.h>
#include <stdint.h>

#ifdef __cplusplus
extern "C" {
#endif

/* The bytes of an entry:
     0      word: 0 valid, 1 invalid, 2 refused
     1      number: 0, or that of the refusal: a book 1 to 9, a record 11 to 15, a call 21 to 23
     2, 3   zero
     4-7    place of the refusal, for a book its line; lowest byte first
     8-15   bytes of the stream read by then; lowest byte first */
#define FIELDTEXT_ENTRY 16

/* The bytes of a table: docs/LIMITS.md has their layout. */
#define FIELDTEXT_TABLE 7920

/* The number of a book's refusal, and its line; 0 where the book is accepted. */
uint8_t fieldtext_book_number(const uint8_t *book, size_t book_length);
size_t fieldtext_book_line(const uint8_t *book, size_t book_length);

/* Fills the table with what the book says, all FIELDTEXT_TABLE bytes of it, and returns the number of the book's refusal; 0 where it
   is accepted. After a refusal every byte of the table is 0. */
uint8_t fieldtext_load(const uint8_t *book, size_t book_length, uint8_t *table);

/* Starts with a table of FIELDTEXT_TABLE bytes and the work buffer, feeds the stream in pieces of size bytes (0: in one piece) and
   closes. Returns how many entries that gives. Entry i is written to out + 16 * i, where out has these 16 bytes; no other byte of out
   is written. A refused start gives one entry and leaves the work buffer as it is: 23 where a number of the table is above its limit,
   which fieldtext_load never leaves; 21 where the work buffer is too short. */
size_t fieldtext_judge_table(const uint8_t *table, const uint8_t *stream, size_t stream_length, size_t size,
                             uint8_t *work, size_t work_length, uint8_t *out, size_t out_length);

/* Loads the book into a table of its own, and judges by that as fieldtext_judge_table does. A refused book gives one entry and leaves
   the work buffer as it is. */
size_t fieldtext_judge(const uint8_t *book, size_t book_length, const uint8_t *stream, size_t stream_length, size_t size,
                       uint8_t *work, size_t work_length, uint8_t *out, size_t out_length);

/* The numbers of corners: 1,024 corners of two numbers each. */
#define FIELDTEXT_CORNERS 2048

#define FIELDTEXT_OUTSIDE 0
#define FIELDTEXT_INSIDE 1
#define FIELDTEXT_EDGE 2

/* Judges the text by book B, takes its corners, and says where the point (x, y) lies: FIELDTEXT_OUTSIDE, FIELDTEXT_INSIDE or
   FIELDTEXT_EDGE, with the number of the nearest corner in *nearest; or the refusal 31, 32 or 33, with *nearest 0. table
   (FIELDTEXT_TABLE bytes) and corners (FIELDTEXT_CORNERS numbers) are lent: afterwards table holds book B's table, and corners the
   corners' numbers x, y one after the other and zeros behind them; all zeros where the text or a corner is refused (a point that is out
   of range leaves the corners in place). */
uint8_t fieldtext_locate(const uint8_t *text, size_t text_length, int32_t x, int32_t y, uint8_t *table, int32_t *corners, size_t *nearest);

/* Reads the text alone: returns how many corners it has (3 to 1,024), or 0 with the refusal 31, 32 or 33 in *refusal (0 where it is not
   refused). Same lent memory. */
size_t fieldtext_corners(const uint8_t *text, size_t text_length, uint8_t *table, int32_t *corners, uint8_t *refusal);

/* A point of a track, with room for its answer: 16 bytes, four numbers of four bytes each, lowest byte first.
     0-3    x
     4-7    y
     8-11   answer: FIELDTEXT_OUTSIDE, FIELDTEXT_INSIDE or FIELDTEXT_EDGE; 33 where the point is out of range
     12-15  nearest: the number of the nearest corner; 0 where the point is out of range */
struct fieldtext_track_point {
    int32_t x, y;
    uint32_t answer, nearest;
};

/* Reads the text once, as fieldtext_corners does, and writes the answer and the nearest corner of each point of the track, which are those
   that fieldtext_locate gives for the point alone; a point out of range does not keep the others from theirs. Returns 0, or the refusal of
   the text or of a corner, 31, 32 or 33: then no byte of the track is written. x and y stay as they are. The text is judged for an empty
   track, too. Same lent memory, left as fieldtext_corners leaves it. track (track_length points) must be aligned as its struct is, and
   must not overlap the other memory. */
uint8_t fieldtext_track(const uint8_t *text, size_t text_length, struct fieldtext_track_point *track, size_t track_length,
                        uint8_t *table, int32_t *corners);

#ifdef __cplusplus
}
#endif

#endif
