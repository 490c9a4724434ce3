/* The calls that the proved libraries export, for C and C++ on x86-64. The first five stand in libsolver_api.a, the next three in
 * libsearch_api.a, and `runs_case`, the last, in libruns_api.a.
 *
 * Each call is handed a case text, reads and judges it anew, and answers 0 or the number of a refusal (docs/FORMATS.md, "The numbers"). A call that
 * refuses leaves all that it is lent as it was. A slice is a pointer and, behind it, how many elements it has; an array is a pointer alone.
 *
 * What the caller answers for: a pointer is not null and is aligned, also where its length is 0; what it points to is as long as the length says, or as the
 * array has to be, and has been given values; what a call may write overlaps nothing else that the call is lent, and no other thread touches it before
 * the call returns; and the stack has room (library/README.md). No call keeps a pointer, allocates, reads or writes a file, or has state of its own.
 */
#ifndef NEDLUVO_H
#define NEDLUVO_H

#include <stddef.h>
#include <stdint.h>

#ifdef __cplusplus
extern "C" {
#endif

#define NEDLUVO_CASE_BYTES 4096     /* no case text may have more; one that has is refused with 1 */
#define NEDLUVO_LINE_BYTES 45       /* no line of a plan has more, its end included */
#define NEDLUVO_MARKS 61440         /* what a search notes between its rounds */
#define NEDLUVO_SPACE 9             /* refused: a table or a buffer is too short */
#define NEDLUVO_NONE UINT32_MAX     /* in a figure table: this placement has no figure */

/* TABLES. Both have one entry for each placement: the number of sections, to the power of the number of trains. A longer table will do, and what stands
 * behind the last placement is left alone. The entry of a placement is at its code: for each train the number of its section less 1, times the number of
 * sections to the power of the train's number less 1, all added up. A figure table has figures or NEDLUVO_NONE. A setting table has a bit
 * for each point, the lowest for point 1, set if it lies at plus, and from bit 16 on one for each train, set if its signal is open; at home, and where there is
 * no figure, the entry is 0. */

/* Fills both tables. 0 also where the start has no figure. */
uint8_t solve_case(const uint8_t *text, size_t bytes, uint32_t *figures, size_t figure_entries, uint32_t *settings, size_t setting_entries);

/* THE PLAN, as text, from tables that `solve_case` filled. A place says where to go on: 0 at first, then what the last call left there. */
#define NEDLUVO_END 255             /* no line is left */
#define NEDLUVO_NO_PLAN 254         /* the start has no figure, so there is no plan */

/* As many whole lines as find room in `out`. With 0, `place` is the next place and `written` how many bytes the lines have. Every other answer leaves
 * both, and `out`, as they were. A buffer too short for the next line is refused with 9; one of NEDLUVO_LINE_BYTES never is. */
uint8_t write_plan_lines(const uint8_t *text, size_t bytes, const uint32_t *figures, size_t figure_entries, const uint32_t *settings, size_t setting_entries,
                         uint64_t *place, uint8_t *out, size_t room, size_t *written);

/* A CHECK of a plan by any maker: begin, hand in its text, test. State and tables are the caller's to keep from call to call. */
typedef uint32_t nedluvo_check[3];

/* Makes both tables fresh, and the state that of a checker which has taken no line. */
uint8_t begin_check(const uint8_t *text, size_t bytes, nedluvo_check state, uint32_t *figures, size_t figure_entries, uint32_t *settings, size_t setting_entries);

/* Takes the lines in front of `plan` up to the first that is no line of a plan here; `taken` is how many bytes they have. With 0 and fewer bytes than were
 * handed in, the line behind them is refused as 10, or its end is missing: hand it in again when the rest of it has come. */
uint8_t take_plan_lines(const uint8_t *text, size_t bytes, nedluvo_check state, const uint8_t *plan, size_t plan_bytes, uint32_t *figures, size_t figure_entries,
                        uint32_t *settings, size_t setting_entries, size_t *taken);

/* 0: the lines taken are a plan that passes. 10: there are none. 11: the plan fails. Writes nothing. */
uint8_t test_plan(const uint8_t *text, size_t bytes, const nedluvo_check state, const uint32_t *figures, size_t figure_entries, const uint32_t *settings,
                  size_t setting_entries);

/* A SEARCH that can be looked into: open, round after round, look up in between. State, tables and marks are the caller's to keep from call to call, and no
 * one else's to write. state[0] is the number of rounds finished. */
typedef uint32_t nedluvo_search[3];
#define NEDLUVO_ENDED 255           /* of a round: the search has ended, by this round or before */
#define NEDLUVO_NOT_YET 254         /* of a look-up: no figure has come yet */
#define NEDLUVO_WITHOUT 255         /* of a look-up: there is no figure, or a section is not there */

/* Opens a search of which no round is finished. `marks` is an array of NEDLUVO_MARKS. */
uint8_t open_search(const uint8_t *text, size_t bytes, nedluvo_search state, uint32_t *figures, size_t figure_entries, uint32_t *settings, size_t setting_entries,
                    uint32_t *marks);

/* Finishes one round. 0: the search goes on. NEDLUVO_ENDED: the tables are those of `solve_case`. */
uint8_t search_round(const uint8_t *text, size_t bytes, nedluvo_search state, uint32_t *figures, size_t figure_entries, uint32_t *settings, size_t setting_entries,
                     uint32_t *marks);

/* What the placement shows that has train t on section sections[t - 1]; of trains that the case does not have any number will do. With 0 the figure is written,
 * every other answer leaves it as it was. */
uint8_t look_up(const uint8_t *text, size_t bytes, const nedluvo_search state, const uint32_t *figures, size_t figure_entries, const uint32_t *settings,
                size_t setting_entries, const uint8_t sections[4], uint32_t *figure);

/* SHORTEST RUNS, one table for each heading, of 48 rows with 48 bytes each, whatever the case has. table[x - 1][y - 1] is how many sections a train of that
 * heading enters at least on its way from section x to section y, over any points and past any signal and train, but into no closed section: 0 from a section to
 * itself, NEDLUVO_NO_RUN where there is no way, and so in the rows and columns of sections that the case does not have. */
#define NEDLUVO_SECTIONS 48         /* rows, and bytes in a row */
#define NEDLUVO_NO_RUN 255          /* in a table of runs: it cannot get there */
typedef uint8_t nedluvo_runs[NEDLUVO_SECTIONS][NEDLUVO_SECTIONS];

/* With 0 both tables are written, all 2,304 bytes of each: `up` for trains that head up, `down` for those that head down. Every other answer leaves both as
 * they were. No search is made. The start's figure is at least the sum of the trains' runs, each from its start to its destination; where a train has none
 * the start has no figure. */
uint8_t runs_case(const uint8_t *text, size_t bytes, nedluvo_runs up, nedluvo_runs down);

#ifdef __cplusplus
}
#endif

#endif
