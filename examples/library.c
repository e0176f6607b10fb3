/* Asks the library about a book: its sizes, its sections without a border, each train's first runs, and what the literals of the
 * formula's first clauses stand for; and judges a plan and prints its train graph, where one is given. All of it without a cap on the
 * borders: where a function takes one, the two numbers 0, 0 ahead of the book say that there is none.
 *
 *   cc -Iinclude examples/library.c -Ltarget/staticlib -lgentupag -o library && ./library examples/following.book [PLAN]
 */
#include "gentupag.h"

#include <stdio.h>
#include <stdlib.h>

typedef struct {
    uint8_t *bytes;
    size_t length;
} input;

/* Room for some entries, or the end of the program. */
static void *room(size_t count, size_t size) {
    void *found = calloc(count + 1, size);
    if (!found) {
        fprintf(stderr, "library: no memory\n");
        exit(2);
    }
    return found;
}

static input read_file(const char *name) {
    FILE *file = fopen(name, "rb");
    if (!file || fseek(file, 0, SEEK_END)) {
        fprintf(stderr, "library: %s cannot be read\n", name);
        exit(2);
    }
    long length = ftell(file);
    input found = {room((size_t)length, 1), (size_t)length};
    rewind(file);
    found.length = fread(found.bytes, 1, found.length, file);
    fclose(file);
    return found;
}

static void print_sections(input book, gentupag_sizes sizes) {
    uint8_t *borders = room(sizes.nodes, 1), *labels = room(sizes.segments, 1);
    gentupag_output answer = gentupag_label_sections(book.bytes, book.length, borders, sizes.nodes, labels, sizes.segments);
    printf("sections without a border:");
    for (size_t s = 0; s < answer.length; s++)
        printf(" %zu:%d", s, labels[s]);
    printf("\n");
    free(borders);
    free(labels);
}

static void print_runs(input book, size_t train) {
    gentupag_run run = gentupag_show_run(book.bytes, book.length, train, 0);
    printf("train %zu stands on %zu segments and has %zu runs:", train, run.place, run.runs);
    for (size_t r = 0; r < 4 && r < run.runs; r++) {
        run = gentupag_show_run(book.bytes, book.length, train, r);
        printf("%s", r ? "," : "");
        for (size_t i = 0; i < run.length; i++)
            printf(" %d", run.path[i]);
    }
    printf("\n");
}

static void print_literal(input book, int32_t literal) {
    gentupag_variable v = gentupag_explain_variable_under(0, 0, book.bytes, book.length, (size_t)(literal < 0 ? -literal : literal));
    printf("  %s", literal < 0 ? "not " : "");
    if (v.kind == GENTUPAG_IS_BORDER)
        printf("border at node %zu\n", v.item);
    else if (v.kind == GENTUPAG_IS_RUN)
        printf("train %zu makes run %zu in interval %zu\n", v.train, v.item, v.interval);
    else if (v.kind == GENTUPAG_IS_GONE)
        printf("train %zu is gone in interval %zu\n", v.train, v.interval);
    else
        printf("train %zu claims segment %zu in interval %zu\n", v.train, v.item, v.interval);
}

static void print_clauses(input book, gentupag_sizes sizes) {
    int32_t *words = room(sizes.words, sizeof *words);
    gentupag_totals totals = gentupag_write_formula_under(0, 0, book.bytes, book.length, words, sizes.words);
    size_t at = 0;
    for (size_t clause = 1; clause <= 3 && clause <= totals.clauses; clause++) {
        printf("clause %zu:\n", clause);
        for (; words[at] != 0; at++)
            print_literal(book, words[at]);
        at++;
    }
    free(words);
}

/* The verdict on a plan, and on the assignment that it is written as, which is judged alone and then unpacked. */
static void judge(input book, input plan, gentupag_sizes sizes) {
    uint8_t *assignment = room(sizes.variables, 1), *back = room(sizes.plan_bytes, 1);
    gentupag_output answer =
        gentupag_check_plan_under(0, 0, book.bytes, book.length, plan.bytes, plan.length, assignment, sizes.variables);
    if (answer.number) {
        printf("the plan is refused: %zu %zu\n", answer.number, answer.detail);
    } else {
        gentupag_verdict verdict = gentupag_judge_assignment_under(0, 0, book.bytes, book.length, assignment, answer.length);
        answer = gentupag_unpack_plan_under(0, 0, book.bytes, book.length, assignment, answer.length, back, sizes.plan_bytes);
        printf("the plan is accepted; its assignment of %zu bytes is %s and gives %zu bytes back\n", sizes.variables,
               verdict.number ? "refused" : "accepted", answer.length);
    }
    free(assignment);
    free(back);
}

/* The train graph of a plan, or why there is none. */
static void print_graph(input book, input plan, gentupag_sizes sizes) {
    size_t length = 81 * sizes.intervals;
    uint8_t *page = room(length, 1);
    gentupag_output answer = gentupag_print_graph(book.bytes, book.length, plan.bytes, plan.length, page, length);
    if (answer.number)
        printf("no train graph: %zu %zu\n", answer.number, answer.detail);
    fwrite(page, 1, answer.length, stdout);
    free(page);
}

int main(int count, char **names) {
    if (count != 2 && count != 3) {
        fprintf(stderr, "usage: library BOOK [PLAN]\n");
        return 2;
    }
    input book = read_file(names[1]);
    gentupag_sizes sizes = gentupag_measure_book_under(0, 0, book.bytes, book.length);
    if (sizes.number) {
        printf("the book is refused: %zu %zu\n", sizes.number, sizes.detail);
        free(book.bytes);
        return 1;
    }
    printf("%zu intervals, %zu nodes (%zu may have a border or none), %zu segments, %zu trains\n", sizes.intervals, sizes.nodes,
           sizes.free_nodes, sizes.segments, sizes.trains);
    printf("%zu variables, %zu clauses, %zu words; a plan has %zu bytes\n", sizes.variables, sizes.clauses, sizes.words,
           sizes.plan_bytes);
    print_sections(book, sizes);
    for (size_t train = 0; train < sizes.trains; train++)
        print_runs(book, train);
    print_clauses(book, sizes);
    if (count == 3) {
        input plan = read_file(names[2]);
        judge(book, plan, sizes);
        print_graph(book, plan, sizes);
        free(plan.bytes);
    }
    free(book.bytes);
    return 0;
}
