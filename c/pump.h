/*
 * Proved pump maps, for C.
 *
 * A map says how many litres a minute a pump moves at each level u (across, 0 to w) and motor speed v (up, 0 to h).
 * It has a value at each of its anchors. Each anchor (m, n) has a blend, whose weight is 1 there: the product of two
 * hats, the one across 0 at l, rising straight to 1 at m and falling straight to 0 at r, the one up likewise with b,
 * n and t. l to r by b to t is the blend's support. The reading at a point is the sum of value times weight over all
 * blends.
 *
 * Lines
 * -----
 * An upright line stands at one level, a level line lies at one speed. The edges of the map are lines too. Lines of
 * one direction at one position that touch are one line, and a line that is drawn to an edge runs on one step beyond
 * it. A line cuts a blend where it stands strictly between l and r, not at m, and runs from b to t or beyond (a
 * level line: strictly between b and t, not at n, from l to r). A blend that is cut is replaced by two narrower
 * ones, and so on until no line cuts any: these are the map's blends, and it has no others.
 *
 * A map is sound when every unit square lies in the supports of exactly four blends, and no blend's anchor lies
 * strictly inside the support of another. Every map here is sound: a line that would leave another one is never
 * drawn. So all blends add up to one at every point, no two have one anchor, and the reading at an anchor is its
 * value.
 *
 * The anchors are exactly the points where an upright and a level both pass; a line that ends on another adds none
 * there. A line that passes the other checks leaves a sound map exactly when both its ends are good. The far end of
 * an upright line at level p is good at speed q where q is the edge, or a line goes on there at level p, or where
 * two blends have their anchors at speed q, one with m < p < r and one with l < p < m, and the same b. Its near end
 * is good likewise, with the same t; a level line likewise, with the axes changed round. The ends of a whole gap are
 * good, so a line that is refused with 8 can always be drawn longer: pump_split is given how much longer it may be.
 *
 * Marks
 * -----
 * Each value has a mark that says where it comes from: 1, PUMP_MEASURED, or 0, PUMP_WORKED_OUT. A value that is set
 * is measured, also where it is the one from before; the values of a fresh map, and those that a split gives to new
 * anchors, are worked out. pump_place and pump_table show the mark after the value. Nothing else looks at marks: two
 * maps that differ only in them have the same readings, weights, rows and columns, take the same splits and are the
 * same map to pump_same.
 *
 * Maps are bytes
 * --------------
 * A map crosses this border as the bytes of its file, and nothing is kept between calls. A call that changes a map
 * works in place: the map is the first *used of the size bytes at buffer, and an accepted call leaves the new file
 * there and its length in *used; bytes after the file stay as they were. PUMP_LARGEST_FILE bytes hold every map.
 * Save and load them as they are. Each call but pump_payload and pump_fresh reads and checks the whole file; on the
 * largest map that takes some 0.3 ms (docs/BENCHMARKS.md).
 *
 * The file is made of 16-bit numbers, little-endian on every machine, in records: a length (of the bytes after it),
 * a kind, and the payload.
 *     6, 1, w, h                                  one; the sides
 *     10, 2, direction, position, from, to        one for each split, in the order in which they were drawn
 *     10, 5, m, n, value, mark                    one for each anchor (m, n), sorted by m, then by n
 *     2, 4                                        one; the end
 * That is 12 + 12 * splits + 12 * anchors bytes. Bytes of this form are a map file where pump_split would accept all
 * their splits with allowance 0, in order from the fresh map, their anchors are those of the map so made, and each mark
 * is 0 or 1.
 *
 * Older files have a record without a mark for each anchor,
 *     8, 3, m, n, value
 * and are read too, with 0 for every mark. Such a file may be lent to any call, and stays as it is until a change is
 * accepted: that leaves the new map's file in the new form, which has 2 bytes more for each anchor. A file with
 * anchors of both kinds is refused.
 *
 * Answers
 * -------
 * Every call returns a number. 0 is yes; one of 1 to 13 says why not, the first reason that applies: 11 before any
 * other, since the bytes are read first, then the rest in the order in which each call tells its numbers. After a
 * refusal all lent bytes and *used are as they were, and every other number handed back is 0.
 *
 * Calls allocate nothing. Give a thread that makes them 256 KB of stack: the deepest call was measured at 202 KB
 * (tests/stack.c). Calls on different bytes may run at the same time, and so may any number of calls that only read
 * the same bytes: those that take a const pointer.
 *
 * Your part, which C cannot check: a pointer points to as many bytes as the size after it says, and is not null even
 * where that is 0; what a call may change does not overlap anything else that is lent to it; and nobody else writes
 * to what is lent until the call returns.
 */
#ifndef PUMP_H
#define PUMP_H

#include <stddef.h>
#include <stdint.h>

#ifdef __cplusplus
extern "C" {
#endif

enum {
    PUMP_YES = 0,
    PUMP_SIDE = 1,          /* a fresh map's side is outside 1 to 128 */
    PUMP_RECORD = 2,        /* never answered from C: such a map is no file, and refused with 11 */
    PUMP_RANGE = 3,         /* the split's direction, position, from, to or allowance, or the value to be set, is out
                               of range */
    PUMP_FULL = 4,          /* the map has 60 splits */
    PUMP_SHARED = 5,        /* the split shares more than one point with a line of its direction at its position */
    PUMP_LOOSE_END = 6,     /* an end of the split lies on no line of the other direction */
    PUMP_CUTS_NOTHING = 7,  /* the split, joined with lines that it touches, cuts no blend */
    PUMP_UNSOUND = 8,       /* no line within the allowance leaves a sound map: the nearest good ends lie too far out */
    PUMP_NO_ANCHOR = 9,     /* no blend has the anchor, or the table place, asked about */
    PUMP_OUTSIDE = 10,      /* the point, row or column lies outside the domain, 0 to w by 0 to h */
    PUMP_NO_FILE = 11,      /* the bytes are not a map file, *used is above size, or no whole record is at the place */
    PUMP_SHORT = 12,        /* the bytes lent for the answer are too few */
    PUMP_NOT_REACHED = 13   /* no pair of neighbours has the wanted flow between them, or it is outside 1 to 65,535 */
};

enum {
    PUMP_LARGEST_SIDE = 128,
    PUMP_MOST_SPLITS = 60,
    PUMP_MOST_ALLOWANCE = 128,
    PUMP_MOST_BLENDS = 1024,
    PUMP_LARGEST_FILE = 13020, /* 12 + 12 * 60 + 12 * 1024 */
    PUMP_TABLE_TEXT = 65536    /* no table's text is longer */
};

enum { PUMP_UPRIGHT = 0, PUMP_LEVEL = 1 };

enum { PUMP_WORKED_OUT = 0, PUMP_MEASURED = 1 };

/*
 * What pump_place and pump_weights put into the bytes lent to them: the fields in this order, as 16-bit numbers,
 * little-endian; on a little-endian machine that is the struct itself.
 *
 * At the edges of the map a support reaches one step beyond: l and b may be -1, r may be w + 1 and t may be h + 1.
 */
typedef struct {
    int16_t l, m, r; /* across, by level */
    int16_t b, n, t; /* up, by speed */
    uint16_t value;  /* litres a minute at the anchor */
    uint16_t mark;   /* PUMP_WORKED_OUT or PUMP_MEASURED */
} pump_entry;

typedef struct {
    int16_t l, m, r, b, n, t;
    uint16_t numerator, denominator; /* the blend's weight at the point, not reduced */
} pump_weight;

/* Makes the fresh map of sides w (level, across) and h (speed, up), each 1 to PUMP_LARGEST_SIDE: four anchors, at
   the corners, with the value 0, worked out, in a file of 60 bytes. What the buffer and *used held before does not
   matter. Refused with 1 or 12. */
size_t pump_fresh(size_t w, size_t h, uint8_t *buffer, size_t size, size_t *used);

/* Sets the value at the anchor (m, n), 0 to 65,535, and marks it measured. A larger number is refused with 3, and so
   is one below 0, which C hands over as a large one: no other value is set in its place.
   Refused with 11, 3 or 9, and with 12 where the buffer holds an older file and is too short for the new one. */
size_t pump_set(uint8_t *buffer, size_t size, size_t *used, size_t m, size_t n, size_t value);

/* Draws a line, as given or up to `allowance` steps longer, both ends together:
       PUMP_UPRIGHT at level `position` from speed `from` to speed `to`; 0 < position < w and 0 <= from < to <= h;
       PUMP_LEVEL at speed `position` from level `from` to level `to`; 0 < position < h and 0 <= from < to <= w;
       0 <= allowance <= PUMP_MOST_ALLOWANCE.
   With allowance 0 the line is drawn as given. With more, the line is drawn that adds the fewest anchors, of all those
   that contain the given one, are at most that much longer and would be accepted with allowance 0; the given one may
   be among them. It is the line between the nearest good ends: it lies in all the others, and each of those adds more,
   so it is also the shortest and there is never a tie. More allowance never changes what is drawn: once an allowance
   is accepted, every larger one up to the most draws the same line. It is the last split of the file.
   Refusals 3 to 7 look at the line as given. 8 says that the line between the nearest good ends is longer than the
   allowance lets it be; it does not come with PUMP_MOST_ALLOWANCE, since no side is longer and a whole gap has good
   ends.
   Every old anchor keeps its value and mark, and each new one gets the reading that the map had there, marked as
   worked out. So no reading at an old anchor changes, and one at any other whole point moves by at most one, up or
   down: that one comes from the rounding, and a later split may move it again by one. A straight pump is exact: if
   the value at each anchor (m, n) is A + B m + C n + D m n, the four whole numbers of either sign, then so it is
   after the split, and the reading at every whole point (u, v) is A + B u + C v + D u v, before and after.
   It stands for two older calls: for pump_exact_split(...) write pump_split(..., 0), and for
   pump_lengthened_split(...) write pump_split(..., PUMP_MOST_ALLOWANCE).
   Refused with 11, 3 to 8, or 12. */
size_t pump_split(uint8_t *buffer, size_t size, size_t *used, size_t direction, size_t position, size_t from, size_t to,
                  size_t allowance);

/* Puts the blend, value and mark at a place of the table, from 0, into the sizeof(pump_entry) bytes at out, 16 of them.
   The table lists the blends in the order of the file's anchors. Refused with 11, 9 or 12. */
size_t pump_place(const uint8_t *file, size_t length, size_t place, uint8_t *out, size_t size);

/* The reading at the whole point (u, v): the sum of value times weight, exact, then rounded to the nearest whole
   number, halves up.
   Refused with 11 or 10. */
size_t pump_reading(const uint8_t *file, size_t length, size_t u, size_t v, size_t *litres);

/* The level at which a flow is reached: along the row v, *count is how many pairs of neighbouring points (u, v) and
   (u + 1, v) there are of which one reading is below `wanted` and the other is not, and *first is the u of the first
   pair. Between two pairs all readings lie on one side of `wanted`, so walking on from the first misses none; where
   the two ends of the row lie on different sides, the count is odd. `wanted` is 1 to 65,535.
   Refused with 11, 10 or 13. */
size_t pump_row(const uint8_t *file, size_t length, size_t v, size_t wanted, size_t *count, size_t *first);

/* The speed at which it is reached: the same up the column u, with pairs (u, v) and (u, v + 1) and the v of the first.
   Refused with 11, 10 or 13. */
size_t pump_column(const uint8_t *file, size_t length, size_t u, size_t wanted, size_t *count, size_t *first);

/* Puts the weights at the whole point (u, v) of the four blends over its unit square, in table order, into the
   4 * sizeof(pump_weight) bytes at out. The square is that from (u, v) to (u + 1, v + 1); at u = w the one from
   u - 1, and at v = h the one from v - 1. Every other blend weighs 0 there. A denominator is the product of the two gaps
   between knots, across and up, in which the square lies in that blend: at most 128 * 128, and the four may differ.
   Refused with 11, 10 or 12. */
size_t pump_weights(const uint8_t *file, size_t length, size_t u, size_t v, uint8_t *out, size_t size);

/* Whether two maps are the same: *yes is 1 where sides, blends and values agree, else 0. Marks do not count, nor by
   which splits the lines were drawn, and in which order, so two same maps may have files of different lengths. Both
   may be the same bytes. Refused with 11. */
size_t pump_same(const uint8_t *first, size_t first_length, const uint8_t *second, size_t second_length, size_t *yes);

/* Whether the bytes are a map file. Refused with 11. */
size_t pump_check(const uint8_t *file, size_t length);

/* The payload of the file record at a byte place: *count bytes from bytes[*from] on. Its kind is the two bytes
   before them, the next record's place *from + *count. Only the record's length is looked at, so the bytes need not
   be a map file.
   Refused with 11, also at the place after the last record. */
size_t pump_payload(const uint8_t *bytes, size_t length, size_t place, size_t *from, size_t *count);

/* Puts the text of the whole table into out: a line with the number of blends, then for each a line `l m r b n t
   value mark`, with one blank between numbers and a newline at the end of every line. *count is the text's length;
   bytes after it stay as they were, and no zero ends it. PUMP_TABLE_TEXT bytes hold every text. Refused with 11 or
   12. */
size_t pump_table(const uint8_t *file, size_t length, uint8_t *out, size_t size, size_t *count);

#ifdef __cplusplus
}
#endif

#endif
