/* The proved core as a library: books, formulas, assignments, plans and refutations as document 01 has them, and what
 * drawings and tools ask of a book. docs/LIBRARY.md explains each function; docs/FORMATS.md has the files and the refusals.
 *
 * A slice is a pointer and a length in elements; where the length is 0 the pointer may be null. The caller owes this: each pointer
 * is good for its length and aligned for its type, and an output or a working slice overlaps no other slice of the call (inputs may
 * overlap each other). In place is not allowed: a check whose slices overlap may answer anything.
 *
 * Every answer begins with `number` and `detail`: 0 and 0, or the refusal's. Every function first reads the book, and refuses it by
 * 1 to 11; further refusals are named at each. Beside a refusal every other field is 0 and every output (`out`) is as it was. No
 * function keeps or allocates anything. Times in a book have two bytes; gentupag_upgrade_book alone reads old books, whose times have one.
 *
 * What is about the formula takes a cap, by two numbers ahead of the book, and ends in `_under`. Where `capped` is 0 there is no cap, and `cap` is
 * not looked at; where it is anything else, at most `cap` nodes of kind 1 may be set, and any number will do: one that is not below the count of
 * these nodes adds nothing (docs/FORMATS.md, section 13). No number stands for "no cap".
 */
#ifndef GENTUPAG_H
#define GENTUPAG_H

#include <stddef.h>
#include <stdint.h>

/* marks a slice that overlaps no other one of the call */
#if !defined __cplusplus && defined __STDC_VERSION__ && __STDC_VERSION__ >= 199901L
#define GENTUPAG_APART restrict
#else
#define GENTUPAG_APART
#endif

#ifdef __cplusplus
extern "C" {
#endif

typedef struct {
    size_t number, detail;
} gentupag_verdict;

/* length: how many bytes of the output were written */
typedef struct {
    size_t number, detail;
    size_t length;
} gentupag_output;

/* words: how many words of the output were written */
typedef struct {
    size_t number, detail;
    size_t variables, clauses, words;
} gentupag_totals;

/* free_nodes: the nodes of kind 1, which may have a border or none */
typedef struct {
    size_t number, detail;
    size_t intervals, nodes, free_nodes, segments, trains;
    size_t variables, clauses, words, plan_bytes;
} gentupag_sizes;

/* What `missing` says of a run. */
enum { GENTUPAG_NOTHING_MISSING = 0, GENTUPAG_NO_TRAIN = 1, GENTUPAG_NO_RUN = 2 };

/* runs: how many runs the train has; place: how many segments it stands on; the run's directed segments are the first
 * `length` bytes of `path`, zeros stand behind. The train begins at the first `place` of them and ends at the last. Where there is
 * no such train all of these are 0, and where the train has no such run all but `runs`. */
typedef struct {
    size_t number, detail;
    size_t missing, runs, place, length;
    uint8_t path[16];
} gentupag_run;

/* What `kind` says of a variable. */
enum {
    GENTUPAG_NO_VARIABLE = 0,
    GENTUPAG_IS_BORDER = 1,
    GENTUPAG_IS_RUN = 2,
    GENTUPAG_IS_GONE = 3,
    GENTUPAG_IS_CLAIM = 4,
    GENTUPAG_IS_COUNT = 5
};

/* item: the node of a border, the number of a run, the segment of a claim, and of a count, which a cap adds, a node of kind 1: of the nodes of
 * kind 1 up to that one, itself too, at least `count` are set. A border and a count have no train and no interval, gone has no item, and only
 * a count has a `count`: these are 0. */
typedef struct {
    size_t number, detail;
    size_t kind, train, interval, item, count;
} gentupag_variable;

/* Whether the bytes are a book. */
gentupag_verdict gentupag_read_book(const uint8_t *book, size_t book_length);

/* What a book counts, and how much its outputs need under the cap; nothing is written. */
gentupag_sizes gentupag_measure_book_under(size_t capped, size_t cap, const uint8_t *book, size_t book_length);

/* The formula's words, each clause closed by 0. Refuses by 12, too short an output. */
gentupag_totals gentupag_write_formula_under(size_t capped, size_t cap, const uint8_t *book, size_t book_length,
                                             int32_t *GENTUPAG_APART out, size_t out_length);

/* An assignment's verdict; nothing is lent for a plan, so 12 is never given. Refuses by 13, 14. */
gentupag_verdict gentupag_judge_assignment_under(size_t capped, size_t cap, const uint8_t *book, size_t book_length,
                                                 const uint8_t *assignment, size_t assignment_length);

/* The plan that an assignment decodes to. Refuses by 12, an output shorter than `plan_bytes`; then the assignment is judged, by 13 and 14 as
 * gentupag_judge_assignment_under has them, and only the plan of an accepted one is written. */
gentupag_output gentupag_unpack_plan_under(size_t capped, size_t cap, const uint8_t *book, size_t book_length,
                                           const uint8_t *assignment, size_t assignment_length, uint8_t *GENTUPAG_APART out,
                                           size_t out_length);

/* A plan's verdict, and its assignment. Refuses by 12, an output shorter than `variables`, by 15 and 16, and by 22, more than `cap` nodes of kind 1
 * set. */
gentupag_output gentupag_check_plan_under(size_t capped, size_t cap, const uint8_t *book, size_t book_length, const uint8_t *plan,
                                          size_t plan_length, uint8_t *GENTUPAG_APART out, size_t out_length);

/* A refutation's verdict; an accepted one says that no plan within the cap keeps the rules. Refuses by 12 and 17 to 21. The four working slices:
 * `words` and `clauses` hold the formula and the steps, `values` and `trail` an entry a variable. All four are zero after the call, whatever they
 * held and whatever the verdict is. */
gentupag_verdict gentupag_check_refutation_under(size_t capped, size_t cap, const uint8_t *book, size_t book_length,
                                                 const uint8_t *refutation, size_t refutation_length,
                                                 int32_t *GENTUPAG_APART words, size_t words_length,
                                                 size_t *GENTUPAG_APART clauses, size_t clauses_length,
                                                 uint8_t *GENTUPAG_APART values, size_t values_length,
                                                 size_t *GENTUPAG_APART trail, size_t trail_length);

/* The combined verdict: an assignment without a cap, whose plan sets `n` nodes of kind 1, and a refutation under cap n - 1; accepted together they
 * say that there is a plan with `n` of these nodes set, and none with fewer. Refuses by 12, too short a slice for the formula under cap n - 1, by 13
 * and 14 of the assignment, by 22, where its plan sets another count than `n`, and by 17 to 21 of the refutation, with 12 in its steps. With n = 0
 * there is no lower cap: the slices are asked for nothing, and a refutation that is not empty is refused by 21. The slices are as above, and zero
 * after the call. */
gentupag_verdict gentupag_check_fewest(const uint8_t *book, size_t book_length, size_t n, const uint8_t *assignment,
                                       size_t assignment_length, const uint8_t *refutation, size_t refutation_length,
                                       int32_t *GENTUPAG_APART words, size_t words_length,
                                       size_t *GENTUPAG_APART clauses, size_t clauses_length,
                                       uint8_t *GENTUPAG_APART values, size_t values_length,
                                       size_t *GENTUPAG_APART trail, size_t trail_length);

/* The label of each segment's section, which is the section's least segment, under a set of borders, a byte 0 or 1 a node. Refuses by
 * 12, then by 15, a wrong length or byte. The nodes' kinds are not asked. Two segments are in one section exactly where their labels
 * are equal. */
gentupag_output gentupag_label_sections(const uint8_t *book, size_t book_length, const uint8_t *borders,
                                        size_t borders_length, uint8_t *GENTUPAG_APART out, size_t out_length);

/* Run `run` of train `train`, both counted from 0. */
gentupag_run gentupag_show_run(const uint8_t *book, size_t book_length, size_t train, size_t run);

/* What a variable stands for, counted from 1 as in the formula's text. */
gentupag_variable gentupag_explain_variable_under(size_t capped, size_t cap, const uint8_t *book, size_t book_length, size_t variable);

/* An old book, with times of one byte and at most 32 intervals, rewritten as a book. Refuses what is no old book by 1 to 11, and by 12,
 * too short an output: the new book has one byte more for its Head, one a train and two a call. */
gentupag_output gentupag_upgrade_book(const uint8_t *old, size_t old_length, uint8_t *GENTUPAG_APART out, size_t out_length);

/* The train graph of a plan, which is judged first as gentupag_check_plan_under does without a cap: 81 times `intervals` bytes. Refuses by 12, a shorter output,
 * then by 15 and 16. Line t begins at 81 t, has 80 bytes of text and a newline; the cell of train i begins at 81 t + 4 + 9 i (docs/FORMATS.md,
 * section 11). No byte 0 stands behind the page: go by `length`. */
gentupag_output gentupag_print_graph(const uint8_t *book, size_t book_length, const uint8_t *plan, size_t plan_length,
                                     uint8_t *GENTUPAG_APART out, size_t out_length);

/* The borders that carry a plan, which is judged first as gentupag_check_plan_under does without a cap: each set node of kind 1 without whose border, and nothing
 * else changed, trains would share a section. Four bytes each, in rising node number: node, the earliest interval in which trains then meet, and
 * of the pairs that meet in it the first by lower and then by higher train. Refuses by 12, an output shorter than 4 times `free_nodes`, set or not,
 * then by 15 and 16. A `length` of 0 says that no border by itself carries the plan (docs/FORMATS.md, section 12). */
gentupag_output gentupag_list_carriers(const uint8_t *book, size_t book_length, const uint8_t *plan, size_t plan_length,
                                       uint8_t *GENTUPAG_APART out, size_t out_length);

#undef GENTUPAG_APART
#ifdef __cplusplus
}
#endif

#endif
