/* A small user of the C library: reads two cascade files and tells about their clauses, their miter, where
 * they have no marks, and their first difference.
 *
 *     cc -Iinclude examples/editor.c target/staticlib/libcapi.a -o editor
 *     ./editor examples/and.cascade examples/and_not.cascade
 *     ./editor examples/half_adder.cascade examples/half_adder_wrong.cascade
 *
 * The first file is the suspect, the second the reference. The exit status is 0 where all calls were
 * served, 1 where one was refused, and 2 where a file could not be read or the answer not be written. */
#include "cascade.h"
#include <inttypes.h>
#include <stdio.h>

/* A cascade as it was read. */
struct cascade {
    struct cascade_header header;
    uint64_t gates;
    uint64_t words[CASCADE_MAX_GATES * CASCADE_GATE_WORDS];
};

static const char *name_of(uint64_t number)
{
    switch (number) {
    case CASCADE_SERVED: return "served";
    case CASCADE_WRONG_FORM: return "a line of the wrong form";
    case CASCADE_BAD_LINE_COUNT: return "a line count outside 1 to 64";
    case CASCADE_LINE_OUTSIDE: return "a target or control at or above the line count";
    case CASCADE_TARGET_CONTROLLED: return "a control on the target";
    case CASCADE_NOT_RISING: return "controls that do not rise by line";
    case CASCADE_TOO_MANY_GATES: return "too many gates";
    case CASCADE_NO_GATE: return "words that form no gate";
    case CASCADE_LINE_COUNTS_DIFFER: return "line counts that differ";
    case CASCADE_BAD_STATE: return "a state that is not permitted";
    case CASCADE_NO_ROOM: return "a buffer that is too short";
    case CASCADE_BAD_WORD_COUNT: return "a word count that is no multiple of three";
    case CASCADE_AGREEING_STATE: return "a state on which the two agree";
    case CASCADE_TOO_WIDE: return "too many lines for a sweep";
    case CASCADE_BAD_MARK: return "a mark on no line, or not above the one before";
    case CASCADE_MARKS_DIFFER: return "marks that differ";
    case CASCADE_WORD_TOO_WIDE: return "a clause word that does not fit 16 bits";
    default: return "a number that this program does not know";
    }
}

/* Tells a refusal. The answer is whether there was one. */
static int refused(const char *what, uint64_t number, uint64_t place)
{
    if (number != CASCADE_SERVED)
        printf("%s: refused with %" PRIu64 ", %s, at %" PRIu64 "\n", what, number, name_of(number), place);
    return number != CASCADE_SERVED;
}

/* Whether a cascade has marks. */
static int marked(struct cascade_header header)
{
    return header.constants || header.junk;
}

static const char *kind_of(uint64_t kind)
{
    return kind == CASCADE_PAIR ? "pair" : kind == CASCADE_DROP ? "drop" : "turn";
}

/* Reads a file into the cascade, and answers the exit status. */
static int read_file(const char *path, struct cascade *cascade)
{
    static uint8_t text[CASCADE_MAX_TEXT + 1];
    FILE *file = fopen(path, "rb");
    if (!file) {
        perror(path);
        return 2;
    }
    size_t size = fread(text, 1, sizeof text, file);
    int failed = ferror(file);
    fclose(file);
    if (failed) {
        fprintf(stderr, "%s: it could not be read\n", path);
        return 2;
    }
    struct cascade_read_answer read = cascade_read(text, size, cascade->words, CASCADE_MAX_GATES * CASCADE_GATE_WORDS);
    if (refused(path, read.number, read.place))
        return 1;
    cascade->header.lines = read.lines;
    cascade->header.constants = read.constants;
    cascade->header.values = read.values;
    cascade->header.junk = read.junk;
    cascade->gates = read.gates;
    printf("%s: %" PRIu64 " lines, %" PRIu64 " gates, %zu bytes after its end\n", path, read.lines, read.gates, size - (size_t)read.taken);
    if (marked(cascade->header))
        printf("%s: constants of mask %" PRIu64 ", with value 1 those of mask %" PRIu64 "; junk lines of mask %" PRIu64 "\n", path, read.constants, read.values, read.junk);
    return 0;
}

/* The clauses of the two, into a buffer of just their length. */
static int tell_pair(const struct cascade *a, const struct cascade *b)
{
    static int32_t clauses[CASCADE_MAX_PAIR_WORDS];
    struct cascade_sizes_answer list = cascade_pair_sizes(a->header, a->words, 3 * a->gates, b->header, b->words, 3 * b->gates);
    if (refused("pair", list.number, list.place))
        return 1;
    list = cascade_pair_emit(a->header, a->words, 3 * a->gates, b->header, b->words, 3 * b->gates, clauses, (size_t)list.words);
    if (refused("emission of the pair", list.number, list.place))
        return 1;
    printf("pair: %" PRIu64 " clauses over %" PRIu64 " variables, in %" PRIu64 " words\n", list.clauses, list.variables, list.words);
    return 0;
}

/* Without marks: one step on the miter, then all others, then the clauses of what is left. */
static int tell_miter(const struct cascade *a, const struct cascade *b)
{
    static uint64_t miter[CASCADE_MAX_MITER_GATES * CASCADE_GATE_WORDS];
    static int32_t clauses[CASCADE_MAX_CLAUSE_WORDS];
    const uint64_t lines = a->header.lines;
    struct cascade_count_answer made = cascade_miter(lines, a->words, 3 * a->gates, b->header.lines, b->words, 3 * b->gates, miter, sizeof miter / sizeof *miter);
    if (refused("miter", made.number, made.place))
        return 1;
    printf("miter: %" PRIu64 " gates\n", made.gates);
    struct cascade_step_answer step = cascade_step(lines, miter, 3 * made.gates);
    if (refused("step", step.number, step.place))
        return 1;
    if (step.found)
        printf("step: gates %" PRIu64 " and %" PRIu64 ", a %s, leave %" PRIu64 " gates\n", step.i, step.j, kind_of(step.kind), step.gates);
    else
        printf("step: none, %" PRIu64 " gates stand\n", step.gates);
    struct cascade_reduce_answer left = cascade_reduce(lines, miter, 3 * step.gates);
    if (refused("reduction", left.number, left.place))
        return 1;
    printf("reduction: %" PRIu64 " gates left, %" PRIu64 " pairs, %" PRIu64 " merges\n", left.gates, left.pairs, left.merges);
    struct cascade_sizes_answer list = cascade_emit(lines, miter, 3 * left.gates, clauses, CASCADE_MAX_CLAUSE_WORDS);
    if (refused("emission", list.number, list.place))
        return 1;
    printf("clauses: %" PRIu64 " over %" PRIu64 " variables, in %" PRIu64 " words\n", list.clauses, list.variables, list.words);
    return 0;
}

/* The lowest permitted state on which the two differ, and what each gate of the suspect may miss for it. */
static int tell_difference(const struct cascade *a, const struct cascade *b)
{
    static uint64_t masks[CASCADE_MAX_GATES * CASCADE_GATE_MASKS];
    struct cascade_state_answer first = cascade_first_difference(a->header, a->words, 3 * a->gates, b->header, b->words, 3 * b->gates);
    if (refused("first difference", first.number, first.place))
        return 1;
    if (!first.found) {
        printf("first difference: none, the two are equal\n");
        return 0;
    }
    printf("first difference: state %" PRIu64 "\n", first.state);
    struct cascade_count_answer faults = cascade_fault_masks(a->header, a->words, 3 * a->gates, b->header, b->words, 3 * b->gates, &first.state, 1, masks, sizeof masks / sizeof *masks);
    if (refused("fault masks", faults.number, faults.place))
        return 1;
    for (uint64_t i = 0; i < faults.gates; i++) {
        const uint64_t *of_gate = masks + CASCADE_GATE_MASKS * i;
        printf("gate %" PRIu64 " may miss a positive control of mask %" PRIu64 ", a negative one of mask %" PRIu64 "\n", i, of_gate[0], of_gate[1]);
    }
    return 0;
}

int main(int argc, char **argv)
{
    static struct cascade a, b;
    if (argc != 3) {
        fprintf(stderr, "usage: editor SUSPECT REFERENCE\n");
        return 2;
    }
    int status = read_file(argv[1], &a);
    if (!status)
        status = read_file(argv[2], &b);
    if (!status)
        status = tell_pair(&a, &b);
    if (!status && !marked(a.header))
        status = tell_miter(&a, &b);
    if (!status)
        status = tell_difference(&a, &b);
    if (fflush(stdout) || ferror(stdout)) {
        perror("standard output");
        return 2;
    }
    return status;
}
