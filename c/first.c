/* A first program: a map of 12 levels by 12 speeds, with four short lines round the stop level 6.
   Each line says what the library answers, and why a line is refused. */
#include <stdio.h>

#include "pump.h"

static const char *const why[] = {
    "drawn",
    "a side is outside 1 to 128",
    "the record is not good",
    "direction, position, from, to, allowance or value is out of range",
    "the map has 60 splits",
    "it shares more than one point with a line at its position",
    "an end lies on no crossing line",
    "it cuts no blend",
    "the map would not be sound",
    "no blend has that anchor",
    "the point lies outside the map",
    "these bytes are no map file",
    "the buffer is too short",
    "no two neighbours have that flow between them",
};

static uint8_t map[PUMP_LARGEST_FILE];
static size_t used;

/* The line that was drawn last: the last record of kind 2 in the file. */
static void show_last_line(void) {
    size_t from, count;
    const uint8_t *line = NULL;
    for (size_t at = 0; pump_payload(map, used, at, &from, &count) == PUMP_YES; at = from + count)
        if (map[from - 2] == 2)
            line = map + from;
    if (line != NULL)
        printf(" from %d to %d", line[4] + 256 * line[5], line[6] + 256 * line[7]);
}

/* Draws a line as given. Where that is refused with 8 it may be 4 steps longer, and where that is not enough, as long
   as it must be. */
static void draw(size_t direction, size_t position, size_t from, size_t to) {
    static const size_t allowances[] = {0, 4, PUMP_MOST_ALLOWANCE};
    size_t n = PUMP_UNSOUND;
    printf("%s %zu, %zu to %zu", direction == PUMP_UPRIGHT ? "upright" : "level", position, from, to);
    for (size_t i = 0; i < 3 && n == PUMP_UNSOUND; i++) {
        n = pump_split(map, sizeof map, &used, direction, position, from, to, allowances[i]);
        if (i > 0)
            printf("  at most %zu steps longer", allowances[i]);
        printf(": %zu, %s", n, why[n]);
        if (i > 0 && n == PUMP_YES)
            show_last_line();
        printf("\n");
    }
}

static void set(size_t level, size_t speed, size_t litres) {
    size_t n = pump_set(map, sizeof map, &used, level, speed, litres);
    printf("set (%zu, %zu) to %zu: %zu, %s\n", level, speed, litres, n, n == PUMP_YES ? "set" : why[n]);
}

int main(void) {
    size_t n = pump_fresh(12, 12, map, sizeof map, &used);
    printf("fresh 12 by 12: %zu, a file of %zu bytes\n", n, used);

    /* Full lines round the stop level, and through it. */
    for (size_t at = 4; at <= 8; at += 2) {
        draw(PUMP_UPRIGHT, at, 0, 12);
        draw(PUMP_LEVEL, at, 0, 12);
    }

    /* Three lines that are refused. */
    draw(PUMP_UPRIGHT, 5, 4, 7);
    draw(PUMP_UPRIGHT, 5, 4, 6);
    draw(PUMP_UPRIGHT, 6, 4, 8);

    /* The four short lines. Drawn as given, either of the last two would leave a map that is not sound (pump.h says what
       that is; the old editor did not count the blends over every square). They are drawn longer. */
    draw(PUMP_UPRIGHT, 5, 4, 8);
    draw(PUMP_UPRIGHT, 7, 4, 8);
    draw(PUMP_LEVEL, 5, 4, 8);
    draw(PUMP_LEVEL, 7, 4, 8);

    /* The pump gives 300 litres a minute beyond the stop level at full speed, and nothing at it. */
    set(12, 12, 300);
    set(8, 12, 300);
    set(5, 9, 300);
    set(12, 12, 65536);
    for (size_t u = 5; u <= 9; u++) {
        size_t litres;
        n = pump_reading(map, used, u, 12, &litres);
        printf("reading at (%zu, 12): %zu, %zu litres a minute\n", u, n, litres);
    }

    /* Where along full speed does it give 150 litres a minute? */
    size_t count, first;
    n = pump_row(map, used, 12, 150, &count, &first);
    printf("150 litres a minute at speed 12: %zu, reached %zu time, between levels %zu and %zu\n", n, count, first, first + 1);
    n = pump_row(map, used, 12, 301, &count, &first);
    printf("301 litres a minute at speed 12: %zu, %s\n", n, why[n]);

    /* What was set is measured; all other values were worked out. */
    pump_entry entry;
    size_t values = 0, measured = 0;
    while (pump_place(map, used, values, (uint8_t *)&entry, sizeof entry) == PUMP_YES) {
        values++;
        measured += entry.mark == PUMP_MEASURED;
    }
    printf("%zu values, %zu of them measured\n", values, measured);

    /* At every whole point the four weights add up to one. */
    pump_weight four[4];
    n = pump_weights(map, used, 7, 9, (uint8_t *)four, sizeof four);
    printf("weights at (7, 9): %zu\n", n);
    for (int i = 0; i < 4; i++)
        printf("  anchor (%d, %d): %u/%u\n", four[i].m, four[i].n, four[i].numerator, four[i].denominator);

    printf("the map is a file of %zu bytes; check: %zu\n", used, pump_check(map, used));
    return 0;
}
