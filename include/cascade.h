/* The C interface of the cascade checker. It may change until all change requests are worked in.
 *
 * CASCADES. A cascade has 1 to 64 lines and 0 to 16,384 gates; a miter has up to 32,768. A gate inverts
 * its target line where all its positive controls are 1 and all its negative ones 0; the first gate
 * acts first. In memory a gate is three 64-bit words: the mask of its positive controls, the mask of
 * its negative controls, the number of its target line. Bit k of a mask or of a state is line k. No
 * line is in both masks, the target is in neither, and all lines are below the line count.
 *
 * FILES. A cascade file is text. Lines end in LF, fields are parted by one tab (written -> here):
 *
 *     lines->3             first: the number of lines, 1 to 64
 *     const->2->0          a constant line and its value, 0 or 1
 *     junk->1              a junk line, whose output is ignored
 *     g->2->+0->-1         a gate: its target, then each control as + or - and its line, by rising line
 *     end                  last
 *
 * Constant lines stand first, then junk lines, each by rising line, then the gates.
 * Numbers are decimal, of one or two digits, without a leading zero.
 *
 * MARKS. Calls that take a header (struct cascade_header) know constant lines, whose input is fixed, and
 * junk lines, whose output is ignored; a line may be both. A state is permitted where each constant line
 * has its value. Two cascades differ on a permitted state where some line that is not junk comes out
 * differently, and are equal where they differ on none. A cascade without marks has three masks of 0. The
 * other calls take gates without marks. Steps and reductions on each of two marked cascades alone leave
 * the states on which the two differ.
 *
 * ANSWERS. Every call tests its input. `number` is 0 where the call is served, and else says why it
 * is refused (enum cascade_number); `place` says where, and is 0 where nothing else is said. So test
 * `number` first. A value that a case does not have is 0; but the gate count of a step that answers
 * none, and of a step or reduction that is refused, is the one that stands, words_len / 3.
 * A refused call changes no buffer. A served call puts its answer at the start of its buffer and
 * leaves the rest.
 *
 * BUFFERS. Lengths count elements, and not bytes. A pointer is aligned for its type and has that many
 * elements; with a length of 0 it may be null. What a call only reads (const) may overlap with
 * anything else that it only reads. What a call writes must not overlap with any other argument: the
 * proof does not cover a call with such an overlap, which may write outside of its buffers. How much
 * room is needed:
 *
 *     cascade_read          3 words a gate; CASCADE_MAX_GATES * 3 hold every file
 *     cascade_write         CASCADE_MAX_TEXT bytes hold the text of every cascade
 *     cascade_inverse       the words of the cascade
 *     cascade_miter         the words of both together; CASCADE_MAX_MITER_GATES * 3 hold every miter
 *     cascade_emit          the `words` that cascade_sizes gives; CASCADE_MAX_CLAUSE_WORDS hold all
 *     cascade_pair_emit     the `words` that cascade_pair_sizes gives; CASCADE_MAX_PAIR_WORDS hold all
 *     cascade_widen         words_len words
 *     cascade_narrow        words_len words
 *     cascade_fault_masks   CASCADE_GATE_MASKS words a gate of the suspect
 *
 * The calls keep no state and take no memory from the system, so threads may call at the same time,
 * each with buffers of its own. A call uses less than CASCADE_STACK bytes of stack.
 *
 * STEPS. A step and a reduction set freed words to 0. Three zero words are a gate: NOT on line 0. So
 * pass on just the gates that an answer counts, and no words behind them. A step may compare each gate
 * with all later ones, so its time is not linear in the gates, as that of the other calls is. Steps until
 * none:
 *
 *     struct cascade_step_answer r;
 *     do {
 *         r = cascade_step(lines, words, 3 * gates);
 *         if (r.number != CASCADE_SERVED)
 *             break;                              // refused: nothing was changed
 *         gates = r.gates;                        // the count that stands, after none too
 *     } while (r.found);
 *
 * EQUALITY. The clauses that cascade_emit gives of the miter of two cascades without marks, as it was
 * made or after steps and reductions on it, can be satisfied exactly where the two cascades differ, and
 * so can those that cascade_pair_emit gives of any two cascades: variables 1 to n of a satisfying
 * assignment are lines 0 to n - 1 of a permitted state on which they do. An OR clause needs a true
 * literal, and an XOR clause an odd number of them; where every line is junk, the last OR has none.
 *
 * STORED LISTS. A word of a clause list has 32 bits. Lists that are stored with words of 16 bits are made
 * such lists by cascade_widen, and a list goes back to 16 bits by cascade_narrow where each word fits, which
 * it does where there are at most 32,767 variables. No literal changes either way.
 *
 * examples/editor.c uses all of this. `tests/archive` proves the library and writes it, for Linux on
 * x86-64-v2, to target/staticlib/libcapi.a; it is linked by cc -Iinclude PROGRAM.c target/staticlib/libcapi.a
 */
#ifndef CASCADE_H
#define CASCADE_H

#include <stddef.h>
#include <stdint.h>

#ifdef __cplusplus
extern "C" {
#endif

#define CASCADE_MAX_LINES 64
#define CASCADE_MAX_GATES 16384        /* of a cascade: read, write, run, inverse, miter, pairs, comparisons, faults */
#define CASCADE_MAX_MITER_GATES 32768  /* of what step, reduce, sizes and emit are given */
#define CASCADE_MAX_SWEEP_LINES 16     /* of cascade_first_difference */
#define CASCADE_GATE_WORDS 3           /* words a gate */
#define CASCADE_GATE_MASKS 2           /* masks a gate, of cascade_fault_masks */
#define CASCADE_MAX_TEXT 4048057       /* bytes of the longest text of a cascade */
#define CASCADE_MAX_CLAUSE_WORDS 10584450 /* words of the longest clause list of a miter */
#define CASCADE_MAX_PAIR_WORDS 10584642 /* words of the longest clause list of two cascades */
#define CASCADE_STACK 2048             /* bytes of stack that a call stays below */

/* Why a call is refused. */
enum cascade_number {
    CASCADE_SERVED = 0,
    CASCADE_WRONG_FORM = 1,         /* a file line of the wrong form, a missing end or LF; at the file line */
    CASCADE_BAD_LINE_COUNT = 2,     /* the line count is outside 1 to 64; of a file: at its line */
    CASCADE_LINE_OUTSIDE = 3,       /* a target or control that is not below the line count; at the file line */
    CASCADE_TARGET_CONTROLLED = 4,  /* a control on the target; at the file line */
    CASCADE_NOT_RISING = 5,         /* controls that do not rise by line; at the file line */
    CASCADE_TOO_MANY_GATES = 6,     /* more gates than the limit; of a file: at the first gate line too many */
    CASCADE_NO_GATE = 7,            /* words that form no gate on these lines; at the gate's index */
    CASCADE_LINE_COUNTS_DIFFER = 8, /* two cascades on different line counts */
    CASCADE_BAD_STATE = 9,          /* a state with a bit above the lines, or that breaks a constant; at its index in a list of states */
    CASCADE_NO_ROOM = 10,           /* the buffer is shorter than the answer */
    CASCADE_BAD_WORD_COUNT = 11,    /* the number of words is no multiple of three */
    CASCADE_AGREEING_STATE = 12,    /* a state on which suspect and reference agree; at its index */
    CASCADE_TOO_WIDE = 13,          /* a sweep over more than 16 lines */
    CASCADE_BAD_MARK = 14,          /* a mark on no line of the cascade, or value 1 on a line that is no constant; of a file: a mark on no line or not above the one before, at the file line */
    CASCADE_MARKS_DIFFER = 15,      /* two cascades with different marks */
    CASCADE_WORD_TOO_WIDE = 16      /* a word outside -32,768 to 32,767; at its index */
};
/* File lines count from 0, the line `lines` being 0; a missing line has the next index. Gates, states and
 * words count from 0. Of two cascades, the place of 7 is the index within the one that it was found in. */

/* How two gates match in a step. */
enum cascade_kind {
    CASCADE_PAIR = 0, /* equal controls; both gates go */
    CASCADE_DROP = 1, /* one control of opposite polarity; one gate remains, without it */
    CASCADE_TURN = 2  /* one control more; one gate remains, with that control's polarity reversed */
};

/* The kinds of a stored clause. */
enum cascade_clause { CASCADE_OR = 0, CASCADE_XOR = 1 };

/* One gate, as its three words. */
struct cascade_gate {
    uint64_t positive, negative, target;
};

/* The line count of a cascade, the mask of its constant lines, the mask of those whose constant is 1,
 * and the mask of its junk lines. */
struct cascade_header {
    uint64_t lines, constants, values, junk;
};

struct cascade_run_answer {
    uint64_t number, place, state;
};

struct cascade_count_answer {
    uint64_t number, place, gates;
};

struct cascade_read_answer {
    uint64_t number, place, lines, constants, values, junk, gates, taken;
};

struct cascade_write_answer {
    uint64_t number, place, written;
};

/* found is 1 where two gates match, and then i, j and kind say which and how; else it is 0. gates is
 * the count that then stands. */
struct cascade_step_answer {
    uint64_t number, place, found, i, j, kind, gates;
};

/* gates is the count that then stands: gates before = gates + 2 * pairs + merges. */
struct cascade_reduce_answer {
    uint64_t number, place, gates, pairs, merges;
};

struct cascade_sizes_answer {
    uint64_t number, place, variables, clauses, words;
};

struct cascade_words_answer {
    uint64_t number, place, words;
};

/* found is 1 where the two differ, and then state is the lowest permitted one on which they do. */
struct cascade_state_answer {
    uint64_t number, place, found, state;
};

struct cascade_differs_answer {
    uint64_t number, place, differs;
};

/* second is 1 where the second is picked, and else 0; gates is the count of the picked one. */
struct cascade_fewer_answer {
    uint64_t number, place, second, gates;
};

/* The cascade at the start of a text, and how many bytes it took: reading stops after `end`. Refused
 * with 1 to 6 and 14 by file line, then 10. */
struct cascade_read_answer cascade_read(const uint8_t *text, size_t text_len, uint64_t *out, size_t out_len);

/* The text of a cascade, and its length. Refused with 2, 14, 11, 6, 7, 10, tested in this order. */
struct cascade_write_answer cascade_write(struct cascade_header header, const uint64_t *words, size_t words_len, uint8_t *out, size_t out_len);

/* The output state of a cascade. Refused with 2, 11, 6, 7, 9. */
struct cascade_run_answer cascade_run(uint64_t lines, const uint64_t *words, size_t words_len, uint64_t state);

/* The same of a list of gate records. Refused with 2, 6, 7, 9. */
struct cascade_run_answer cascade_run_records(uint64_t lines, const struct cascade_gate *gates, size_t gates_len, uint64_t state);

/* The inverse of a cascade: its gates in reverse order. Refused with 2, 11, 6, 7, 10. */
struct cascade_count_answer cascade_inverse(uint64_t lines, const uint64_t *words, size_t words_len, uint64_t *out, size_t out_len);

/* The miter of two cascades, on na and on nb lines: the first's gates, then the second's in reverse
 * order. Refused with 2, 11, 6, 7 of the first, the same of the second, 8, 10. */
struct cascade_count_answer cascade_miter(uint64_t na, const uint64_t *a, size_t a_len, uint64_t nb, const uint64_t *b, size_t b_len, uint64_t *out, size_t out_len);

/* One reduction step, in place: on the lowest i, then the lowest j above it, such that gates i and j
 * match and gate i may pass every gate between. Two gates may pass each other where neither's target
 * is a control of the other, or some line is a positive control of one and a negative control of the
 * other: exactly where swapping them changes no output. Refused with 2, 11, 6, 7. */
struct cascade_step_answer cascade_step(uint64_t lines, uint64_t *words, size_t words_len);

/* Steps until none, in place: the gates left, the pairs and the merges (drops and turns). Refused
 * with 2, 11, 6, 7. */
struct cascade_reduce_answer cascade_reduce(uint64_t lines, uint64_t *words, size_t words_len);

/* The sizes of the clause list of a cascade. Refused with 2, 11, 6, 7. */
struct cascade_sizes_answer cascade_sizes(uint64_t lines, const uint64_t *words, size_t words_len);

/* The clause list of a cascade, clause after clause: its kind, the number of literals, the literals.
 * Variables count from 1, and a negative literal is true where its variable is false. Refused with 2,
 * 11, 6, 7, 10. */
struct cascade_sizes_answer cascade_emit(uint64_t lines, const uint64_t *words, size_t words_len, int32_t *out, size_t out_len);

/* The sizes of the clause list of two cascades. Refused with 2, 14, 11, 6, 7 of the first, the same of
 * the second, 8, 15. */
struct cascade_sizes_answer cascade_pair_sizes(struct cascade_header a_header, const uint64_t *a, size_t a_len, struct cascade_header b_header, const uint64_t *b, size_t b_len);

/* The clause list of two cascades. With marks: an OR of one literal for each constant, the first's
 * gates, the second's from the same inputs, the lines that count. Without marks it is that of their
 * miter. Refused with 2, 14, 11, 6, 7 of each, 8, 15, 10. */
struct cascade_sizes_answer cascade_pair_emit(struct cascade_header a_header, const uint64_t *a, size_t a_len, struct cascade_header b_header, const uint64_t *b, size_t b_len, int32_t *out, size_t out_len);

/* Words of 16 bits as words of 32 bits, each with the same value; any words, a clause list or not. Refused
 * with 10. */
struct cascade_words_answer cascade_widen(const int16_t *words, size_t words_len, int32_t *out, size_t out_len);

/* Words of 32 bits as words of 16 bits, each with the same value; any words, a clause list or not. Refused
 * with 16, 10. */
struct cascade_words_answer cascade_narrow(const int32_t *words, size_t words_len, int16_t *out, size_t out_len);

/* The lowest permitted state on which two cascades differ, found by trying all. Refused with 2, 14, 11,
 * 6, 7 of the first, the same of the second, 8, 15, 13. */
struct cascade_state_answer cascade_first_difference(struct cascade_header a_header, const uint64_t *a, size_t a_len, struct cascade_header b_header, const uint64_t *b, size_t b_len);

/* Whether two cascades differ on a state. Refused with 2, 14, 11, 6, 7 of each, 8, 15, 9. */
struct cascade_differs_answer cascade_differs(struct cascade_header a_header, const uint64_t *a, size_t a_len, struct cascade_header b_header, const uint64_t *b, size_t b_len, uint64_t state);

/* The one of two cascades with fewer gates, the first on a tie. Refused with 2, 11, 6, 7 of each, 8. */
struct cascade_fewer_answer cascade_fewer_gates(uint64_t na, const uint64_t *a, size_t a_len, uint64_t nb, const uint64_t *b, size_t b_len);

/* Two masks a gate of the suspect: the lines that may be a missing positive control of it, and a
 * missing negative one, for all given states, on each of which suspect and reference differ. It may be
 * a constant or a junk line. The answer counts the suspect's gates. Refused with 2, 14, 11, 6, 7 of
 * each, 8, 15, 9, 12, 10. */
struct cascade_count_answer cascade_fault_masks(struct cascade_header a_header, const uint64_t *suspect, size_t suspect_len, struct cascade_header b_header, const uint64_t *reference, size_t reference_len, const uint64_t *states, size_t states_len, uint64_t *out, size_t out_len);

#ifdef __cplusplus
}
#endif

#endif
