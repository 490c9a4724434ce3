/* example CASE: the whole job in C, from the file of a case to a plan that has been checked. Writes the plan and then `pass`; or `none`; or `refused`, a tab and the
 * number. It takes yards of any size that a case may have, while the programs stop at tables of 8,192 entries. Exit status 0, or 2 where nothing could be read. */
#include "nedluvo.h"
#include <inttypes.h>
#include <stdio.h>
#include <stdlib.h>

static uint32_t *table(size_t entries) {
    uint32_t *made = calloc(entries, sizeof *made);
    if (made) return made;
    fprintf(stderr, "no memory for a table of %zu entries\n", entries);
    exit(2);
}

static int refused(uint8_t number) {
    printf("refused\t%u\n", number);
    return 0;
}

int main(int count, char **words) {
    FILE *file = count == 2 ? fopen(words[1], "rb") : NULL;
    if (!file) {
        fprintf(stderr, "usage: example CASE, a file that can be read\n");
        return 2;
    }
    /* One byte more than a case may have, so that a longer file is seen to be too long. */
    static uint8_t text[NEDLUVO_CASE_BYTES + 1];
    size_t bytes = fread(text, 1, sizeof text, file);
    fclose(file);

    /* Tables that are too short are refused and left alone: then longer ones are tried. The fourth pair is long enough for every case. */
    uint32_t *figures = NULL, *settings = NULL;
    size_t entries = 8192;
    uint8_t answer;
    for (;; entries *= 9) {
        figures = table(entries), settings = table(entries);
        answer = solve_case(text, bytes, figures, entries, settings, entries);
        if (answer != NEDLUVO_SPACE) break;
        free(figures), free(settings);
    }
    if (answer) return refused(answer);

    /* The plan's lines are written piece by piece, and each piece is handed to a checker with tables of its own. */
    uint32_t *listed = table(entries), *set = table(entries);
    nedluvo_check state = {0};
    answer = begin_check(text, bytes, state, listed, entries, set, entries);
    if (answer) return refused(answer);
    uint64_t place = 0;
    for (;;) {
        uint8_t lines[4096] = {0};
        size_t written = 0, taken = 0;
        answer = write_plan_lines(text, bytes, figures, entries, settings, entries, &place, lines, sizeof lines, &written);
        if (answer == NEDLUVO_END) break;
        if (answer == NEDLUVO_NO_PLAN) return puts("none") < 0;
        if (answer) return refused(answer);
        fwrite(lines, 1, written, stdout);
        answer = take_plan_lines(text, bytes, state, lines, written, listed, entries, set, entries, &taken);
        if (answer) return refused(answer);
        if (taken < written) return refused(10);
    }
    answer = test_plan(text, bytes, state, listed, entries, set, entries);
    if (answer) return refused(answer);
    puts("pass");
    free(figures), free(settings), free(listed), free(set);
    return 0;
}
