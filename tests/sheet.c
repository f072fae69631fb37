/* The printed sheet of state lengths (docs/STATE-LENGTHS.md, which is the argument) against the archive. Of each of its 256 figures: create and the queries take a
 * state of so many words, and neither one word less nor one more; and hb_state_words gives the same. */
#include "belkjund.h"

#include <stdio.h>
#include <stdlib.h>
#include <string.h>

/* A row has its N and a figure for each F; there is room for one number more, so that a longer line is told */
enum { COLUMNS = HB_MAX_LOOK_AHEAD + 1, ROW = COLUMNS + 1, ROOM = ROW + 1 };

/* The numbers of a line, as many as there is room for */
static int numbers_of(const char *line, unsigned long *numbers)
{
    int n = 0;
    while (*line != '\0' && n < ROOM) {
        char *end;
        if (*line < '0' || *line > '9') {
            line++;
            continue;
        }
        numbers[n++] = strtoul(line, &end, 10);
        line = end;
    }
    return n;
}

static uint64_t create(uint64_t n, uint64_t look_ahead, uint64_t *state, size_t length)
{
    return hb_create(n, (n - 1) / 3, look_ahead, 0, 1, HB_INCREMENTAL, 0, HB_ALWAYS, 0, 0, state, length);
}

/* Whether this is the only length near it that the engine takes */
static int is_length(uint64_t n, uint64_t look_ahead, size_t length)
{
    static uint64_t state[HB_MAX_STATE_WORDS + 1];
    uint64_t epoch;
    if (length < 1 || length > HB_MAX_STATE_WORDS || length != hb_state_words(n, look_ahead))
        return 0;
    return create(n, look_ahead, state, length - 1) == HB_WRONG_STATE_LENGTH && create(n, look_ahead, state, length + 1) == HB_WRONG_STATE_LENGTH
        && create(n, look_ahead, state, length) == HB_SUCCESS && hb_current_epoch(state, length, &epoch) == HB_SUCCESS
        && hb_current_epoch(state, length - 1, &epoch) == HB_NOT_A_STATE && hb_current_epoch(state, length + 1, &epoch) == HB_NOT_A_STATE;
}

/* A row that begins with its N */
static int is_row(uint64_t n, const unsigned long *numbers)
{
    int right = numbers[0] == n;
    for (int f = 0; f < COLUMNS; f++)
        if (!is_length(n, (uint64_t)f, numbers[f + 1])) {
            printf("sheet: N %lu, F %d: not %lu words\n", (unsigned long)n, f, numbers[f + 1]);
            right = 0;
        }
    return right;
}

static int is_heading(const unsigned long *numbers)
{
    for (int f = 0; f < COLUMNS; f++)
        if (numbers[f] != (unsigned long)f)
            return 0;
    return 1;
}

int main(int count, char **words)
{
    FILE *sheet = count == 2 ? fopen(words[1], "r") : NULL;
    char line[512];
    int inside = 0, headings = 0, rows = 0, wrong = 0;
    if (sheet == NULL) {
        puts("sheet: no such page");
        return 2;
    }
    while (fgets(line, sizeof line, sheet) != NULL) {
        unsigned long numbers[ROOM];
        int found = numbers_of(line, numbers);
        if (strncmp(line, "```", 3) == 0)
            inside = !inside;
        else if (inside && found == COLUMNS)
            headings += is_heading(numbers);
        else if (inside && found == ROW)
            wrong += !is_row((uint64_t)++rows, numbers);
    }
    fclose(sheet);
    if (headings != 1 || rows != (int)HB_MAX_NODES || wrong != 0) {
        printf("sheet: %d headings, %d rows, %d of them wrong\n", headings, rows, wrong);
        return 1;
    }
    printf("sheet: %d figures, each the only length near it that the engine takes\n", rows * COLUMNS);
    return 0;
}
