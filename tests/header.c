/* include/cascade.h against the library: the fields of each struct by their places, the names of
 * numbers and limits, null pointers, stack, marks, and rows of document 01. */
#define _DEFAULT_SOURCE
#include "cascade.h"
#include <pthread.h>
#include <stdio.h>
#include <string.h>

#define FIELD(name, field, k) \
    _Static_assert(offsetof(struct cascade_##name, field) == 8 * k, #name ": " #field); \
    _Static_assert(sizeof(((struct cascade_##name *)0)->field) == 8, #name ": " #field)
#define WORDS(name, k) _Static_assert(sizeof(struct cascade_##name) == 8 * k, #name)
#define ANSWER(name, k) \
    FIELD(name##_answer, number, 0); \
    FIELD(name##_answer, place, 1); \
    WORDS(name##_answer, k)

FIELD(gate, positive, 0);
FIELD(gate, negative, 1);
FIELD(gate, target, 2);
WORDS(gate, 3);

FIELD(header, lines, 0);
FIELD(header, constants, 1);
FIELD(header, values, 2);
FIELD(header, junk, 3);
WORDS(header, 4);

ANSWER(run, 3);
FIELD(run_answer, state, 2);

ANSWER(count, 3);
FIELD(count_answer, gates, 2);

ANSWER(read, 8);
FIELD(read_answer, lines, 2);
FIELD(read_answer, constants, 3);
FIELD(read_answer, values, 4);
FIELD(read_answer, junk, 5);
FIELD(read_answer, gates, 6);
FIELD(read_answer, taken, 7);

ANSWER(write, 3);
FIELD(write_answer, written, 2);

ANSWER(step, 7);
FIELD(step_answer, found, 2);
FIELD(step_answer, i, 3);
FIELD(step_answer, j, 4);
FIELD(step_answer, kind, 5);
FIELD(step_answer, gates, 6);

ANSWER(reduce, 5);
FIELD(reduce_answer, gates, 2);
FIELD(reduce_answer, pairs, 3);
FIELD(reduce_answer, merges, 4);

ANSWER(sizes, 5);
FIELD(sizes_answer, variables, 2);
FIELD(sizes_answer, clauses, 3);
FIELD(sizes_answer, words, 4);

ANSWER(words, 3);
FIELD(words_answer, words, 2);

ANSWER(state, 4);
FIELD(state_answer, found, 2);
FIELD(state_answer, state, 3);

ANSWER(differs, 3);
FIELD(differs_answer, differs, 2);

ANSWER(fewer, 4);
FIELD(fewer_answer, second, 2);
FIELD(fewer_answer, gates, 3);

static int failed;

static void expect(const char *row, uint64_t got, uint64_t right)
{
    if (got != right) {
        printf("header: %s: %llu and not %llu\n", row, (unsigned long long)got, (unsigned long long)right);
        failed = 1;
    }
}

static struct cascade_header unmarked(uint64_t lines)
{
    return (struct cascade_header){lines, 0, 0, 0};
}

static struct cascade_header marked(uint64_t lines, uint64_t constants, uint64_t values, uint64_t junk)
{
    return (struct cascade_header){lines, constants, values, junk};
}

/* A call that is refused, made twice. */
#define REFUSED(call, n, p) (expect(#call " number", (call).number, n), expect(#call " place", (call).place, p))

/* Calls whose answers have different values in different fields. */
static void fields(void)
{
    const uint64_t two[6] = {1, 0, 1, 0, 0, 0};
    const uint64_t three[9] = {0, 0, 0, 0, 0, 1, 0, 0, 0};
    const uint64_t toffoli[3] = {3, 0, 2};
    const uint64_t one_control[3] = {1, 0, 2};
    struct cascade_sizes_answer sizes = cascade_sizes(2, two, 6);
    expect("sizes of two gates: variables", sizes.variables, 6);
    expect("sizes of two gates: clauses", sizes.clauses, 5);
    expect("sizes of two gates: words", sizes.words, 23);
    int32_t clauses[23] = {0};
    sizes = cascade_emit(2, two, 6, clauses, 23);
    expect("emission of two gates: variables", sizes.variables, 6);
    expect("emission of two gates: clauses", sizes.clauses, 5);
    expect("emission of two gates: words", sizes.words, 23);
    uint64_t turned[18] = {0, 0, 7, 0, 0, 6, 0, 0, 5, 3, 0, 4, 1, 0, 4, 0, 0, 3};
    struct cascade_step_answer step = cascade_step(8, turned, 18);
    expect("turn found", step.found, 1);
    expect("turn i", step.i, 3);
    expect("turn j", step.j, 4);
    expect("turn kind", step.kind, 2);
    expect("turn gates", step.gates, 5);
    expect("turn positive controls", turned[9], 1);
    expect("turn negative controls", turned[10], 2);
    uint64_t reduced[21] = {3, 0, 7, 3, 0, 7, 3, 0, 6, 1, 2, 6, 3, 0, 5, 1, 0, 5, 0, 0, 4};
    struct cascade_reduce_answer reduce = cascade_reduce(8, reduced, 21);
    expect("a pair, a drop and a turn: gates", reduce.gates, 3);
    expect("a pair, a drop and a turn: pairs", reduce.pairs, 1);
    expect("a pair, a drop and a turn: merges", reduce.merges, 2);
    sizes = cascade_pair_sizes(marked(4, 3, 1, 8), two, 6, marked(4, 3, 1, 8), two, 3);
    expect("sizes of a marked pair: variables", sizes.variables, 10);
    expect("sizes of a marked pair: clauses", sizes.clauses, 9);
    expect("sizes of a marked pair: words", sizes.words, 38);
    int32_t pair_list[38] = {0};
    sizes = cascade_pair_emit(marked(4, 3, 1, 8), two, 6, marked(4, 3, 1, 8), two, 3, pair_list, 38);
    expect("emission of a marked pair: variables", sizes.variables, 10);
    expect("emission of a marked pair: clauses", sizes.clauses, 9);
    expect("emission of a marked pair: words", sizes.words, 38);
    expect("emission of a marked pair: the constant 1", (uint64_t)pair_list[2], 1);
    expect("emission of a marked pair: the constant 0", (uint64_t)-pair_list[5], 2);
    const uint8_t text[] = "lines\t4\nconst\t0\t1\nconst\t1\t0\njunk\t3\nend\n";
    struct cascade_read_answer read = cascade_read(text, sizeof text - 1, NULL, 0);
    expect("marks read: lines", read.lines, 4);
    expect("marks read: constants", read.constants, 3);
    expect("marks read: values", read.values, 1);
    expect("marks read: junk lines", read.junk, 8);
    expect("marks read: gates", read.gates, 0);
    expect("marks read: bytes", read.taken, sizeof text - 1);
    const int16_t narrow[3] = {1, -2, 32767};
    int32_t wide[4] = {9, 9, 9, 32768};
    struct cascade_words_answer words = cascade_widen(narrow, 3, wide, 4);
    expect("widened: number", words.number, CASCADE_SERVED);
    expect("widened: words", words.words, 3);
    expect("widened: the first", wide[0] == 1, 1);
    expect("widened: the second", wide[1] == -2, 1);
    expect("widened: the third", wide[2] == 32767, 1);
    expect("widened: the rest", wide[3] == 32768, 1);
    int16_t back[3] = {9, 9, 9};
    words = cascade_narrow(wide, 4, back, 3);
    expect("a wide word: number", words.number, CASCADE_WORD_TOO_WIDE);
    expect("a wide word: place", words.place, 3);
    expect("a wide word: words", words.words, 0);
    expect("a wide word: nothing is written", back[0] == 9 && back[1] == 9 && back[2] == 9, 1);
    words = cascade_narrow(wide, 3, back, 3);
    expect("narrowed: number", words.number, CASCADE_SERVED);
    expect("narrowed: words", words.words, 3);
    expect("narrowed again", memcmp(back, narrow, sizeof back) == 0, 1);
    struct cascade_state_answer first = cascade_first_difference(unmarked(3), toffoli, 3, unmarked(3), toffoli, 0);
    expect("first difference to no gate found", first.found, 1);
    expect("first difference to no gate", first.state, 3);
    struct cascade_differs_answer differs = cascade_differs(unmarked(3), toffoli, 3, unmarked(3), one_control, 3, 1);
    expect("differs number", differs.number, 0);
    expect("differs on 1", differs.differs, 1);
    struct cascade_fewer_answer fewer = cascade_fewer_gates(2, three, 9, 2, two, 6);
    expect("two of three and two: second", fewer.second, 1);
    expect("two of three and two: gates", fewer.gates, 2);
}

/* Refused calls, most at a place that is not 0. */
static void refusals(void)
{
    const uint64_t good[6] = {1, 0, 1, 0, 0, 0};
    uint64_t bad[6] = {1, 0, 1, 1, 0, 0};
    const uint64_t toffoli[3] = {3, 0, 2};
    const uint64_t one_control[3] = {1, 0, 2};
    const uint64_t agreeing[2] = {1, 3};
    const uint64_t outside[2] = {3, 8};
    const uint8_t text[] = "lines\t3\ng\t3\nend\n";
    const int32_t wide[3] = {-32768, -32769, 32768};
    const int16_t words[2] = {3, 8};
    uint64_t out[12];
    uint8_t bytes[64];
    int32_t clauses[64];
    int16_t narrow[3];
    REFUSED(cascade_read(text, sizeof text - 1, out, 12), 3, 1);
    REFUSED(cascade_write(unmarked(2), bad, 6, bytes, 64), 7, 1);
    REFUSED(cascade_write(marked(2, 4, 0, 0), bad, 5, bytes, 64), 14, 0);
    REFUSED(cascade_run(2, bad, 6, 0), 7, 1);
    REFUSED(cascade_inverse(2, bad, 6, out, 12), 7, 1);
    REFUSED(cascade_miter(2, good, 6, 2, bad, 6, out, 12), 7, 1);
    REFUSED(cascade_miter(2, good, 6, 3, good, 6, out, 12), 8, 0);
    REFUSED(cascade_step(2, bad, 6), 7, 1);
    REFUSED(cascade_reduce(2, bad, 6), 7, 1);
    REFUSED(cascade_sizes(2, bad, 6), 7, 1);
    REFUSED(cascade_emit(2, bad, 6, clauses, 64), 7, 1);
    REFUSED(cascade_pair_sizes(unmarked(2), good, 6, unmarked(2), bad, 6), 7, 1);
    REFUSED(cascade_pair_sizes(unmarked(2), good, 6, marked(2, 1, 2, 0), bad, 6), 14, 0);
    REFUSED(cascade_pair_sizes(unmarked(2), good, 6, marked(3, 1, 0, 0), good, 6), 8, 0);
    REFUSED(cascade_pair_sizes(unmarked(2), good, 6, marked(2, 1, 0, 0), good, 6), 15, 0);
    REFUSED(cascade_pair_emit(unmarked(2), good, 6, unmarked(2), bad, 6, clauses, 64), 7, 1);
    REFUSED(cascade_pair_emit(unmarked(2), good, 6, marked(2, 0, 0, 4), bad, 6, clauses, 64), 14, 0);
    REFUSED(cascade_pair_emit(unmarked(2), good, 6, marked(2, 0, 0, 1), good, 6, clauses, 64), 15, 0);
    REFUSED(cascade_pair_emit(marked(2, 0, 0, 1), good, 6, marked(2, 0, 0, 1), good, 6, clauses, 1), 10, 0);
    REFUSED(cascade_widen(words, 2, clauses, 1), 10, 0);
    REFUSED(cascade_narrow(wide, 3, narrow, 0), 16, 1);
    REFUSED(cascade_narrow(wide, 1, narrow, 0), 10, 0);
    REFUSED(cascade_first_difference(unmarked(2), good, 6, unmarked(2), bad, 6), 7, 1);
    REFUSED(cascade_first_difference(unmarked(2), good, 6, unmarked(3), good, 6), 8, 0);
    REFUSED(cascade_differs(unmarked(2), good, 6, unmarked(2), bad, 6, 0), 7, 1);
    REFUSED(cascade_differs(unmarked(2), good, 6, unmarked(3), good, 6, 0), 8, 0);
    REFUSED(cascade_fewer_gates(2, good, 6, 2, bad, 6), 7, 1);
    REFUSED(cascade_fewer_gates(2, good, 6, 3, good, 6), 8, 0);
    REFUSED(cascade_fault_masks(unmarked(3), one_control, 3, unmarked(4), toffoli, 3, agreeing, 1, out, 12), 8, 0);
    REFUSED(cascade_fault_masks(unmarked(3), one_control, 3, unmarked(3), toffoli, 3, outside, 2, out, 12), 9, 1);
    REFUSED(cascade_fault_masks(unmarked(3), one_control, 3, unmarked(3), toffoli, 3, agreeing, 2, out, 12), 12, 1);
}

/* t2+0+1 and t2+0 on three lines, of which one is a constant or junk: without marks they differ on 1 and 5, on line 2. */
static void marks(void)
{
    const uint64_t toffoli[3] = {3, 0, 2};
    const uint64_t one_control[3] = {1, 0, 2};
    const uint64_t states[2] = {5, 1};
    uint64_t out[2];
    const struct cascade_header constant = {3, 4, 4, 0}, junk = {3, 0, 0, 4}, both = {3, 4, 4, 4}, outside = {3, 0, 0, 8}, no_constant = {3, 1, 2, 0};
    expect("constant: first difference", cascade_first_difference(constant, toffoli, 3, constant, one_control, 3).state, 5);
    expect("junk: first difference", cascade_first_difference(junk, toffoli, 3, junk, one_control, 3).found, 0);
    expect("both: first difference", cascade_first_difference(both, toffoli, 3, both, one_control, 3).found, 0);
    expect("constant: differs", cascade_differs(constant, toffoli, 3, constant, one_control, 3, 5).differs, 1);
    expect("junk: differs", cascade_differs(junk, toffoli, 3, junk, one_control, 3, 5).differs, 0);
    expect("constant: faults", cascade_fault_masks(constant, one_control, 3, constant, toffoli, 3, states, 1, out, 2).gates, 1);
    expect("constant: a missing positive control", out[0], 2);
    expect("constant: a missing negative control", out[1], 0);
    REFUSED(cascade_differs(constant, toffoli, 3, constant, one_control, 3, 1), CASCADE_BAD_STATE, 0);
    REFUSED(cascade_fault_masks(constant, one_control, 3, constant, toffoli, 3, states, 2, out, 2), CASCADE_BAD_STATE, 1);
    REFUSED(cascade_fault_masks(junk, one_control, 3, junk, toffoli, 3, states, 2, out, 2), CASCADE_AGREEING_STATE, 0);
    REFUSED(cascade_first_difference(outside, toffoli, 2, junk, toffoli, 3), CASCADE_BAD_MARK, 0);
    REFUSED(cascade_first_difference(junk, toffoli, 3, no_constant, toffoli, 3), CASCADE_BAD_MARK, 0);
    REFUSED(cascade_first_difference(marked(17, 1, 1, 0), toffoli, 3, unmarked(17), toffoli, 3), CASCADE_MARKS_DIFFER, 0);
    REFUSED(cascade_differs(constant, toffoli, 3, junk, toffoli, 3, 8), CASCADE_MARKS_DIFFER, 0);
    REFUSED(cascade_differs(constant, toffoli, 3, unmarked(4), toffoli, 3, 0), CASCADE_LINE_COUNTS_DIFFER, 0);
}

/* The longest file: 16,384 gates with 63 controls on 64 lines, targets in turn; twice as many, the
 * longest clause list; and one more. Each gate reads the target of the one before, so that none matches. */
static uint64_t longest[(CASCADE_MAX_MITER_GATES + 1) * CASCADE_GATE_WORDS];
/* The same with a pair, a drop and a turn at the start. */
static uint64_t matching[CASCADE_MAX_MITER_GATES * CASCADE_GATE_WORDS];
/* A cascade of as many gates as one may have on two lines, each the NOT of a line. */
static uint64_t narrow[CASCADE_MAX_GATES * CASCADE_GATE_WORDS];

static void fill(void)
{
    for (size_t i = 0; i <= CASCADE_MAX_MITER_GATES; i++) {
        longest[3 * i] = 0;
        longest[3 * i + 1] = ~((uint64_t)1 << i % 64);
        longest[3 * i + 2] = i % 64;
    }
    const uint64_t first[18] = {3, 0, 7, 3, 0, 7, 3, 0, 6, 1, 2, 6, 3, 0, 5, 1, 0, 5};
    memcpy(matching, longest, sizeof matching);
    memcpy(matching, first, sizeof first);
    for (size_t i = 0; i < CASCADE_MAX_GATES; i++)
        narrow[3 * i + 2] = i % 2;
}

static uint64_t words[CASCADE_MAX_MITER_GATES * CASCADE_GATE_WORDS];
static uint8_t text[CASCADE_MAX_TEXT + 1];
static int32_t list[CASCADE_MAX_PAIR_WORDS];
static int16_t small_list[CASCADE_MAX_PAIR_WORDS];
static const size_t few = CASCADE_MAX_GATES * CASCADE_GATE_WORDS, many = CASCADE_MAX_MITER_GATES * CASCADE_GATE_WORDS;

static void limits(void)
{
    const struct cascade_header all = marked(CASCADE_MAX_LINES, ~(uint64_t)0, 3, ~(uint64_t)0);
    const struct cascade_header constants = marked(CASCADE_MAX_LINES, ~(uint64_t)0, 3, 0);
    expect("gates of a cascade", CASCADE_MAX_GATES, 16384);
    expect("gates of a miter", CASCADE_MAX_MITER_GATES, 32768);
    struct cascade_write_answer write = cascade_write(all, longest, few, text, CASCADE_MAX_TEXT);
    expect("longest text: number", write.number, CASCADE_SERVED);
    expect("longest text: bytes", write.written, CASCADE_MAX_TEXT);
    write = cascade_write(all, longest, few, text, CASCADE_MAX_TEXT - 1);
    expect("longest text without room", write.number, CASCADE_NO_ROOM);
    struct cascade_read_answer read = cascade_read(text, CASCADE_MAX_TEXT, words, few);
    expect("longest text read: gates", read.gates, CASCADE_MAX_GATES);
    expect("longest text read: bytes", read.taken, CASCADE_MAX_TEXT);
    expect("longest text read: constants", read.constants, all.constants);
    expect("longest text read: values", read.values, all.values);
    expect("longest text read: junk lines", read.junk, all.junk);
    expect("longest text read: words", memcmp(words, longest, 8 * few) == 0, 1);
    struct cascade_sizes_answer sizes = cascade_emit(CASCADE_MAX_LINES, longest, many, list, CASCADE_MAX_CLAUSE_WORDS);
    expect("longest clause list: number", sizes.number, CASCADE_SERVED);
    expect("longest clause list: words", sizes.words, CASCADE_MAX_CLAUSE_WORDS);
    REFUSED(cascade_emit(CASCADE_MAX_LINES, longest, many, list, CASCADE_MAX_CLAUSE_WORDS - 1), CASCADE_NO_ROOM, 0);
    sizes = cascade_pair_emit(constants, longest, few, constants, longest + few, few, list, CASCADE_MAX_PAIR_WORDS);
    expect("longest clause list of a pair: number", sizes.number, CASCADE_SERVED);
    expect("longest clause list of a pair: words", sizes.words, CASCADE_MAX_PAIR_WORDS);
    expect("longest clause list of a pair: the last literal", list[CASCADE_MAX_PAIR_WORDS - 1] == (int32_t)sizes.variables, 1);
    expect("longest clause list of a pair: variables", sizes.variables, 64 + 2 * 32768 + 64);
    expect("longest clause list of a pair in 16 bits", cascade_narrow(list, CASCADE_MAX_PAIR_WORDS, small_list, CASCADE_MAX_PAIR_WORDS).number, CASCADE_WORD_TOO_WIDE);
    sizes = cascade_pair_emit(constants, longest, few, constants, longest + few, few, list, CASCADE_MAX_PAIR_WORDS - 1);
    expect("longest clause list of a pair without room", sizes.number, CASCADE_NO_ROOM);
    memcpy(words, matching, sizeof words);
    struct cascade_reduce_answer reduce = cascade_reduce(CASCADE_MAX_LINES, words, many);
    expect("longest miter: gates left", reduce.gates, CASCADE_MAX_MITER_GATES - 4);
    expect("longest miter: pairs", reduce.pairs, 1);
    expect("longest miter: merges", reduce.merges, 2);
    REFUSED(cascade_pair_sizes(constants, longest, few, constants, longest, few + 3), CASCADE_TOO_MANY_GATES, 0);
    REFUSED(cascade_write(unmarked(64), longest, few + 3, text, sizeof text), CASCADE_TOO_MANY_GATES, 0);
    REFUSED(cascade_sizes(64, longest, many + 3), CASCADE_TOO_MANY_GATES, 0);
    REFUSED(cascade_sizes(CASCADE_MAX_LINES + 1, longest, few), CASCADE_BAD_LINE_COUNT, 0);
    REFUSED(cascade_sizes(64, longest, 4), CASCADE_BAD_WORD_COUNT, 0);
    REFUSED(cascade_first_difference(unmarked(CASCADE_MAX_SWEEP_LINES + 1), longest, 0, unmarked(CASCADE_MAX_SWEEP_LINES + 1), longest, 0), CASCADE_TOO_WIDE, 0);
}

/* A file with one line that is wrong, by the number's name. */
static void file_numbers(void)
{
    static const struct {
        const char *text;
        uint64_t number;
        uint64_t place;
    } files[] = {
        {"", CASCADE_WRONG_FORM, 0},
        {"lines\t2\ng 0\nend\n", CASCADE_WRONG_FORM, 1},
        {"lines\t65\nend\n", CASCADE_BAD_LINE_COUNT, 0},
        {"lines\t2\ng\t2\nend\n", CASCADE_LINE_OUTSIDE, 1},
        {"lines\t2\ng\t0\t+0\nend\n", CASCADE_TARGET_CONTROLLED, 1},
        {"lines\t3\ng\t0\ng\t0\t+2\t-1\nend\n", CASCADE_NOT_RISING, 2},
        {"lines\t3\nconst\t2\t1\nconst\t3\t1\nend\n", CASCADE_BAD_MARK, 2},
        {"lines\t3\njunk\t2\njunk\t2\nend\n", CASCADE_BAD_MARK, 2},
        {"lines\t3\njunk\t2\nconst\t2\t1\nend\n", CASCADE_WRONG_FORM, 2},
    };
    uint64_t out[12];
    for (size_t i = 0; i < sizeof files / sizeof *files; i++) {
        REFUSED(cascade_read((const uint8_t *)files[i].text, strlen(files[i].text), out, 12), files[i].number, files[i].place);
    }
}

/* Steps until none, as the header has them. */
static uint64_t steps(uint64_t lines, uint64_t *words, uint64_t gates)
{
    struct cascade_step_answer r;
    do {
        r = cascade_step(lines, words, 3 * gates);
        if (r.number != CASCADE_SERVED)
            break;
        gates = r.gates;
    } while (r.found);
    return gates;
}

/* The gate count stands after none and after a refusal. */
static void counts(void)
{
    uint64_t kept[9] = {3, 0, 2, 0, 0, 1, 0, 3, 2};
    expect("steps until none, three gates", steps(3, kept, 3), 3);
    expect("steps on too many lines, three gates", steps(65, kept, 3), 3);
    uint64_t reduced[9] = {3, 0, 2, 3, 0, 2, 1, 0, 2};
    expect("steps until none, a pair", steps(3, reduced, 3), 1);
    struct cascade_step_answer step = cascade_step(3, kept, 9);
    expect("none: found", step.found, 0);
    expect("none: gates", step.gates, 3);
    step = cascade_step(2, kept, 9);
    expect("refused step: number", step.number, CASCADE_NO_GATE);
    expect("refused step: gates", step.gates, 3);
    step = cascade_step(3, kept, 8);
    expect("step on 8 words: gates", step.gates, 2);
    struct cascade_reduce_answer reduce = cascade_reduce(0, kept, 9);
    expect("refused reduction: number", reduce.number, CASCADE_BAD_LINE_COUNT);
    expect("refused reduction: gates", reduce.gates, 3);
}

/* Each buffer as a null pointer of length 0. */
static void nulls(void)
{
    const uint64_t a[3] = {3, 0, 2};
    uint64_t out[3];
    uint8_t text[12];
    int32_t clauses[16];
    REFUSED(cascade_read(NULL, 0, out, 3), CASCADE_WRONG_FORM, 0);
    REFUSED(cascade_read((const uint8_t *)"lines\t3\ng\t0\nend\n", 16, NULL, 0), CASCADE_NO_ROOM, 0);
    expect("null: read", cascade_read((const uint8_t *)"lines\t3\nend\n", 12, NULL, 0).lines, 3);
    expect("null: write", cascade_write(unmarked(3), NULL, 0, text, 12).written, 12);
    REFUSED(cascade_write(unmarked(3), a, 3, NULL, 0), CASCADE_NO_ROOM, 0);
    expect("null: run", cascade_run(3, NULL, 0, 5).state, 5);
    expect("null: run records", cascade_run_records(3, NULL, 0, 5).state, 5);
    REFUSED(cascade_inverse(3, NULL, 0, NULL, 0), CASCADE_SERVED, 0);
    REFUSED(cascade_inverse(3, a, 3, NULL, 0), CASCADE_NO_ROOM, 0);
    REFUSED(cascade_miter(3, NULL, 0, 3, NULL, 0, NULL, 0), CASCADE_SERVED, 0);
    expect("null: miter", cascade_miter(3, NULL, 0, 3, a, 3, out, 3).gates, 1);
    expect("null: miter, second", cascade_miter(3, a, 3, 3, NULL, 0, out, 3).gates, 1);
    REFUSED(cascade_step(3, NULL, 0), CASCADE_SERVED, 0);
    REFUSED(cascade_reduce(3, NULL, 0), CASCADE_SERVED, 0);
    expect("null: sizes", cascade_sizes(1, NULL, 0).words, 6);
    expect("null: emission", cascade_emit(1, NULL, 0, clauses, 16).words, 6);
    REFUSED(cascade_emit(1, NULL, 0, NULL, 0), CASCADE_NO_ROOM, 0);
    expect("null: pair sizes", cascade_pair_sizes(unmarked(3), NULL, 0, unmarked(3), a, 3).words, 34);
    expect("null: pair sizes, second", cascade_pair_sizes(unmarked(3), a, 3, unmarked(3), NULL, 0).words, 34);
    expect("null: pair emission", cascade_pair_emit(marked(1, 0, 0, 1), NULL, 0, marked(1, 0, 0, 1), NULL, 0, clauses, 16).words, 2);
    REFUSED(cascade_pair_emit(unmarked(1), NULL, 0, unmarked(1), NULL, 0, NULL, 0), CASCADE_NO_ROOM, 0);
    expect("null: widened", cascade_widen(NULL, 0, NULL, 0).number, CASCADE_SERVED);
    expect("null: narrowed", cascade_narrow(NULL, 0, NULL, 0).number, CASCADE_SERVED);
    REFUSED(cascade_widen(small_list, 1, NULL, 0), CASCADE_NO_ROOM, 0);
    REFUSED(cascade_narrow(list, 1, NULL, 0), CASCADE_NO_ROOM, 0);
    expect("null: first difference", cascade_first_difference(unmarked(3), NULL, 0, unmarked(3), a, 3).state, 3);
    expect("null: differs", cascade_differs(unmarked(3), NULL, 0, unmarked(3), a, 3, 3).differs, 1);
    expect("null: fewer gates", cascade_fewer_gates(3, a, 3, 3, NULL, 0).second, 1);
    REFUSED(cascade_fault_masks(unmarked(3), NULL, 0, unmarked(3), a, 3, NULL, 0, NULL, 0), CASCADE_SERVED, 0);
}

/* Two inputs in the same words. */
static void overlaps(void)
{
    const uint64_t a[9] = {3, 0, 2, 2, 0, 0, 1, 0, 2};
    uint64_t out[18];
    expect("a cascade against its own start: gates", cascade_miter(3, a, 9, 3, a, 3, out, 18).gates, 4);
    expect("a cascade against itself: differs", cascade_first_difference(unmarked(3), a, 9, unmarked(3), a, 9).found, 0);
    expect("a cascade against itself: clauses", cascade_pair_sizes(unmarked(3), a, 9, unmarked(3), a, 9).number, CASCADE_SERVED);
    expect("a cascade and its own start: second", cascade_fewer_gates(3, a, 9, 3, a, 6).second, 1);
}

/* ---- stack */

static _Alignas(4096) uint8_t stack[1 << 20];
static uint64_t states[64];
static const struct cascade_header headed = {64, 6, 2, 9};

static uint64_t told;
static void idle(void) {}
/* Each call at its limits. */
#define CALL(name, call) static void do_##name(void) { told |= (call).number; }
CALL(write, cascade_write(headed, longest, few, text, sizeof text))
CALL(read, cascade_read(text, sizeof text, words, few))
CALL(run, cascade_run(64, longest, few, 7))
CALL(records, cascade_run_records(64, (const struct cascade_gate *)longest, CASCADE_MAX_GATES, 7))
CALL(inverse, cascade_inverse(64, longest, few, words, many))
CALL(miter, cascade_miter(64, longest, few, 64, longest + few, few, words, many))
CALL(step, cascade_step(64, matching, many))
CALL(reduce, cascade_reduce(64, matching, many))
CALL(sizes, cascade_sizes(64, longest, many))
CALL(emit, cascade_emit(64, longest, many, list, CASCADE_MAX_CLAUSE_WORDS))
CALL(pair_sizes, cascade_pair_sizes(headed, longest, few, headed, longest + few, few))
CALL(pair_emit, cascade_pair_emit(headed, longest, few, headed, longest + few, few, list, CASCADE_MAX_PAIR_WORDS))
CALL(miter_emit, cascade_pair_emit(unmarked(64), longest, few, unmarked(64), longest + few, few, list, CASCADE_MAX_PAIR_WORDS))
CALL(widen, cascade_widen(small_list, CASCADE_MAX_PAIR_WORDS, list, CASCADE_MAX_PAIR_WORDS))
CALL(narrow, cascade_narrow(list, CASCADE_MAX_PAIR_WORDS, small_list, CASCADE_MAX_PAIR_WORDS))
CALL(sweep, cascade_first_difference(unmarked(2), narrow, few, unmarked(2), narrow, few))
CALL(differs, cascade_differs(headed, longest, few, headed, longest, few - 3, 2))
CALL(fewer, cascade_fewer_gates(64, longest, few, 64, longest, few - 3))
CALL(faults, cascade_fault_masks(unmarked(64), longest, few, unmarked(64), longest, 0, states, 64, words, CASCADE_GATE_MASKS * CASCADE_MAX_GATES))

static void (*called)(void);
static size_t used;

/* Calls a function, and counts the bytes of the stack that are touched from here on. */
static void *thread(void *none)
{
    const uint8_t here = 0;
    size_t free = 0;
    called();
    while (stack[free] == 0xa5)
        free++;
    used = (size_t)(&here - (stack + free));
    return none;
}

/* The bytes that a function touches of the stack of a thread, which has 1 MiB. */
static size_t touched(void (*function)(void))
{
    pthread_attr_t attributes;
    pthread_t id;
    memset(stack, 0xa5, sizeof stack);
    called = function;
    used = sizeof stack;
    if (pthread_attr_init(&attributes) || pthread_attr_setstack(&attributes, stack, sizeof stack) || pthread_create(&id, &attributes, thread, NULL) || pthread_join(id, NULL))
        expect("a thread with a stack of 1 MiB", 0, 1);
    pthread_attr_destroy(&attributes);
    return used;
}

static void stack_use(void)
{
    /* the longest file is written before it is read, and what is widened is narrowed */
    static void (*const calls[])(void) = {do_write, do_read, do_run, do_records, do_inverse, do_miter, do_step, do_reduce, do_sizes, do_emit, do_pair_sizes, do_pair_emit, do_miter_emit, do_widen, do_narrow, do_sweep, do_differs, do_fewer, do_faults};
    const size_t own = touched(idle);
    size_t most = 0;
    for (size_t i = 0; i < sizeof calls / sizeof *calls; i++) {
        const size_t bytes = touched(calls[i]);
        most = bytes > most ? bytes : most;
    }
    printf("header: a call used at most %zu bytes of stack, with its arguments; a thread that makes none, %zu\n", most, own);
    expect("stack: all calls served", told, CASCADE_SERVED);
    expect("less than CASCADE_STACK bytes of stack", most > own && most < CASCADE_STACK, 1);
}

int main(void)
{
    fill();
    fields();
    refusals();
    marks();
    limits();
    file_numbers();
    counts();
    nulls();
    overlaps();
    stack_use();
    const uint64_t toffoli[3] = {3, 0, 2};
    uint64_t two[6] = {1, 0, 1, 0, 0, 0};
    uint64_t out[7] = {9, 9, 9, 9, 9, 9, 9};
    struct cascade_run_answer run = cascade_run(3, toffoli, 3, 3);
    expect("run number", run.number, 0);
    expect("run state", run.state, 7);
    run = cascade_run(3, toffoli, 3, 8);
    expect("run refused", run.number, 9);
    run = cascade_run(2, toffoli, 3, 0);
    expect("run no gate", run.number, 7);
    const struct cascade_gate records[2] = {
        {.positive = 3, .negative = 0, .target = 2},
        {.positive = 1, .negative = 2, .target = 0},
    };
    run = cascade_run_records(3, records, 1, 3);
    expect("run records number", run.number, 0);
    expect("run records state", run.state, 7);
    run = cascade_run_records(3, records, 2, 3);
    expect("run records no gate", run.number, 7);
    expect("run records place", run.place, 1);
    run = cascade_run_records(3, records, 0, 8);
    expect("run records refused", run.number, 9);
    struct cascade_count_answer inverse = cascade_inverse(2, two, 6, out, 7);
    expect("inverse number", inverse.number, 0);
    expect("inverse gates", inverse.gates, 2);
    expect("inverse first target", out[2], 0);
    expect("inverse second target", out[5], 1);
    expect("inverse rest", out[6], 9);
    inverse = cascade_inverse(2, two, 6, out, 5);
    expect("inverse without room", inverse.number, 10);
    uint64_t miter[6] = {0};
    struct cascade_count_answer made = cascade_miter(3, toffoli, 3, 3, toffoli, 3, miter, 6);
    expect("miter gates", made.gates, 2);
    struct cascade_sizes_answer sizes = cascade_sizes(3, toffoli, 3);
    expect("sizes variables", sizes.variables, 8);
    expect("sizes clauses", sizes.clauses, 8);
    expect("sizes words", sizes.words, 34);
    struct cascade_step_answer step = cascade_step(3, miter, 6);
    expect("step found", step.found, 1);
    expect("step j", step.j, 1);
    expect("step gates", step.gates, 0);
    struct cascade_reduce_answer reduce = cascade_reduce(2, two, 6);
    expect("reduce gates", reduce.gates, 2);
    expect("reduce pairs", reduce.pairs, 0);
    int32_t clauses[34] = {0};
    struct cascade_sizes_answer emitted = cascade_emit(3, toffoli, 3, clauses, 34);
    expect("emit number", emitted.number, 0);
    expect("emit words", emitted.words, 34);
    emitted = cascade_emit(3, toffoli, 3, clauses, 33);
    expect("emit without room", emitted.number, 10);
    const uint8_t text[] = "lines\t3\ng\t2\t+0\t+1\nend\nrest";
    uint64_t words[3] = {0};
    struct cascade_read_answer read = cascade_read(text, sizeof text - 1, words, 3);
    expect("read number", read.number, 0);
    expect("read lines", read.lines, 3);
    expect("read gates", read.gates, 1);
    expect("read taken", read.taken, 22);
    expect("read positive controls", words[0], 3);
    expect("read target", words[2], 2);
    uint8_t written[22] = {0};
    struct cascade_write_answer write = cascade_write(unmarked(3), words, 3, written, 22);
    expect("write number", write.number, 0);
    expect("write bytes", write.written, 22);
    for (size_t i = 0; i < 22; i++) {
        expect("write byte", written[i], text[i]);
    }
    const uint64_t one_control[3] = {1, 0, 2};
    struct cascade_state_answer first = cascade_first_difference(unmarked(3), toffoli, 3, unmarked(3), one_control, 3);
    expect("first difference found", first.found, 1);
    expect("first difference", first.state, 1);
    first = cascade_first_difference(unmarked(17), toffoli, 3, unmarked(17), toffoli, 3);
    expect("first difference too wide", first.number, 13);
    struct cascade_differs_answer differs = cascade_differs(unmarked(3), toffoli, 3, unmarked(3), one_control, 3, 3);
    expect("differs", differs.differs, 0);
    struct cascade_fewer_answer fewer = cascade_fewer_gates(2, two, 6, 2, two, 3);
    expect("fewer second", fewer.second, 1);
    expect("fewer gates", fewer.gates, 1);
    const uint64_t failing[1] = {1};
    uint64_t masks[CASCADE_GATE_MASKS] = {9, 9};
    REFUSED(cascade_fault_masks(unmarked(3), one_control, 3, unmarked(3), toffoli, 3, failing, 1, masks, CASCADE_GATE_MASKS - 1), 10, 0);
    struct cascade_count_answer faults = cascade_fault_masks(unmarked(3), one_control, 3, unmarked(3), toffoli, 3, failing, 1, masks, CASCADE_GATE_MASKS);
    expect("fault gates", faults.gates, 1);
    expect("fault positive", masks[0], 2);
    expect("fault negative", masks[1], 0);
    return failed;
}
