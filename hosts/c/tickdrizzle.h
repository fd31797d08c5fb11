/*
 * Multiplication tables of finite semigroups, from C: checks, invariants, generators, embeddings, isomorphisms,
 * CSV text, least degrees, name sheets.
 * The functions are proved, for every input; tickdrizzle(3) tells how to link them. Below them stands a second form of each,
 * tickdrizzle_table_... and tickdrizzle_names_..., with structs and enums. Among the examples, which are installed in
 * share/doc/tickdrizzle/examples/c, calls.c calls each once.
 *
 * A table of order n is n * n bytes, row after row, each 1 to n: the cell in row i, column j is the product i.j.
 * A map is one byte for each source element, its image. Elements count from 1, and byte 0 stands for no element.
 *
 * Every buffer is a pointer and a length in bytes; any content and any length, order, element or degree is allowed.
 * What the caller must see to: no pointer is NULL, each points to as many bytes as its length says (answer: to
 * sixteen numbers), and no buffer that is written overlaps another one; source and target may be one table. The functions
 * keep no pointer and no state, and need no more stack than TICKDRIZZLE_STACK.
 *
 * Each call writes all sixteen numbers of answer:
 *   answer[0]      0, or where the call is refused the number of the earliest failed question (TICKDRIZZLE_NO_...)
 *   answer[1]      the table that a refusal names (TICKDRIZZLE_SOURCE, TICKDRIZZLE_TARGET), else 0
 *   answer[2..15]  the values said below, then zeros
 * A refused call changes no byte of any buffer. Bytes after the part that a call is said to write stay as they were.
 */
#ifndef TICKDRIZZLE_H
#define TICKDRIZZLE_H

#include <stddef.h>
#include <stdint.h>

#ifdef __cplusplus
#define TICKDRIZZLE_RESTRICT
extern "C" {
#else
#define TICKDRIZZLE_RESTRICT restrict
#endif

#define TICKDRIZZLE_VERSION "1.0.0"

/* Sizes. */
#define TICKDRIZZLE_STACK 1000000      /* stack bytes that are enough, as measured: searches need the most */
#define TICKDRIZZLE_GREATEST_ORDER 120
#define TICKDRIZZLE_GREATEST_DEGREE 3
#define TICKDRIZZLE_MOST_CELLS 14400   /* cells of a table of order 120 */
#define TICKDRIZZLE_MOST_SCRATCH 1800  /* scratch bytes of a search between tables of order 120 */
#define TICKDRIZZLE_LONGEST_TEXT 57720 /* text of a table of order 120 whose cells have three digits each */
#define TICKDRIZZLE_MOST_NAMES 120     /* names on a sheet */
#define TICKDRIZZLE_LONGEST_NAME 40    /* bytes of a name */
#define TICKDRIZZLE_MOST_COPIES 65535  /* copies that are counted */
#define TICKDRIZZLE_ANSWERS 16         /* numbers in an answer */

/* The scratch bytes that a search between tables of these orders asks for: a bit for each pair. */
#define TICKDRIZZLE_SCRATCH_SIZE(source_order, target_order) (((source_order) * (target_order) + 7) / 8)

/* The questions, each with its name, number and text. The comment tells the values of a refusal, from answer[2] on; without one there
   are none. TICKDRIZZLE_QUESTIONS(M) is M(name, number, text) for each of them. */
#define TICKDRIZZLE_QUESTIONS(QUESTION) \
    QUESTION(TICKDRIZZLE_NO_ORDER, 1, "is the order 1 to 120?") \
    QUESTION(TICKDRIZZLE_NO_CELL_COUNT, 2, "are there exactly n * n cells?") \
    QUESTION(TICKDRIZZLE_NO_CELL_RANGE, 3, "is every cell 1 to n?") /* the first that is not, counted from 1 */ \
    QUESTION(TICKDRIZZLE_NO_ASSOCIATIVITY, 4, "is (i.j).k = i.(j.k) for all i, j, k?") /* the first i, j, k that fail */ \
    QUESTION(TICKDRIZZLE_NO_MAP_LENGTH, 5, "has the map exactly one byte for each source element?") \
    QUESTION(TICKDRIZZLE_NO_SCRATCH_LENGTH, 6, \
             "has the scratch buffer at least a bit for each pair, source order * target order / 8 bytes rounded up?") \
    QUESTION(TICKDRIZZLE_NO_ELEMENT, 7, "is the element 1 to n?") \
    QUESTION(TICKDRIZZLE_NO_DEGREE, 8, "is the degree 1 to 3?") \
    QUESTION(TICKDRIZZLE_NO_TABLE_ROOM, 9, "has the buffer room for the table of transformations?") \
    QUESTION(TICKDRIZZLE_NO_TEXT_LENGTH, 20, "is the text 1 to 57720 bytes long?") \
    QUESTION(TICKDRIZZLE_NO_TEXT_BYTE, 21, "is every byte a digit, a comma or part of a CR LF pair?") /* the first other's place, from 0 */ \
    QUESTION(TICKDRIZZLE_NO_FIELD_LENGTH, 23, "is each field 1 to 3 bytes long?") /* none; asked after 24 */ \
    QUESTION(TICKDRIZZLE_NO_FIELD_START, 24, "is its first byte other than 0?") /* none; an empty field has no first byte */ \
    QUESTION(TICKDRIZZLE_NO_FIELD_RANGE, 25, "is it at most 120?") \
    QUESTION(TICKDRIZZLE_NO_SQUARE, 26, "are there as many records as the first has fields, each with that many?") \
    QUESTION(TICKDRIZZLE_NO_CELL_ROOM, 27, "has each buffer room for what is loaded?") \
    QUESTION(TICKDRIZZLE_NO_TEXT_ROOM, 28, "has the buffer room for the text?") \
    QUESTION(TICKDRIZZLE_NO_SHEET, 40, "is the sheet one or more records of two fields?") /* the offending place, from 0 */ \
    QUESTION(TICKDRIZZLE_NO_NAME, 41, "is the name 1 to 40 bytes from 20 to 7E?") /* its place, from 1 */ \
    QUESTION(TICKDRIZZLE_NO_NAME_NUMBER, 42, "is the number the next and at most 120?") /* the record's place, from 1; \
             saving asks whether there are 1 to 120 lengths, and says 0 */ \
    QUESTION(TICKDRIZZLE_NO_GENERATOR, 50, "is every entry of the list 1 to n?") \
    QUESTION(TICKDRIZZLE_NO_GENERATION, 51, "does the list generate all n elements?") /* none; an empty list generates nothing */ \
    QUESTION(TICKDRIZZLE_NO_CHOSEN, 60, "is the list not empty and every entry 1 to n?") \
    QUESTION(TICKDRIZZLE_NO_PART_ROOM, 61, "has the buffer room for the cells of the part?") \
    QUESTION(TICKDRIZZLE_NO_ELEMENTS_ROOM, 62, "has the buffer room for the elements of the part?") \
    QUESTION(TICKDRIZZLE_NO_PAIRS_LENGTH, 70, \
             "have the pairs at least a bit for each pair, source order * target order / 8 bytes rounded up?") \
    QUESTION(TICKDRIZZLE_NO_POSITION_ROOM, 80, "has the buffer room for three positions of each element?")

#define TICKDRIZZLE_ENUMERATOR(name, number, text) name = number,
enum tickdrizzle_question {
    TICKDRIZZLE_QUESTIONS(TICKDRIZZLE_ENUMERATOR)
    TICKDRIZZLE_ACCEPTED = 0 /* no question failed */
};
#undef TICKDRIZZLE_ENUMERATOR

/* The table that a refusal by questions 1 to 4 names, in a call with two tables. */
enum tickdrizzle_side {
    TICKDRIZZLE_NO_SIDE = 0,
    TICKDRIZZLE_SOURCE = 1,
    TICKDRIZZLE_TARGET = 2
};

/* What a map check says: answer[2], with the values from answer[3] on. */
enum tickdrizzle_map_outcome {
    TICKDRIZZLE_MAP_HOLDS = 0,        /* the map is an embedding */
    TICKDRIZZLE_MAP_OUTSIDE = 1,      /* the first element whose image is no target element */
    TICKDRIZZLE_MAP_EQUAL_IMAGES = 2, /* the earliest i < j with one image */
    TICKDRIZZLE_MAP_WRONG_PRODUCT = 3 /* the earliest i, j whose product does not go to the product of their images */
};

/* What a search says: answer[2]. */
enum tickdrizzle_search_outcome {
    TICKDRIZZLE_NONE = 0,
    TICKDRIZZLE_FOUND = 1,
    TICKDRIZZLE_STOPPED = 2 /* only by a search with a limit */
};

/* What a count says: answer[2], with the number in answer[3]. */
enum tickdrizzle_count_outcome {
    TICKDRIZZLE_COUNTED = 0, /* the number is at most TICKDRIZZLE_MOST_COPIES */
    TICKDRIZZLE_MORE = 1     /* there are more */
};

/* Asks whether the cells are a table of this order (questions 1 to 4).
   Says no values; writes nothing but the answer. */
void tickdrizzle_check_table(const uint8_t *cells, size_t cells_length, size_t order, uint64_t *TICKDRIZZLE_RESTRICT answer);

/* The least index p and period r of an element, for which power p + r equals power p, and the one power that is its own
   square (questions 1 to 4, 7).
   Says index, period, that element; writes nothing but the answer. */
void tickdrizzle_index_period(const uint8_t *cells, size_t cells_length, size_t order, size_t element,
                              uint64_t *TICKDRIZZLE_RESTRICT answer);

/* The profile of an element: index, period, the power that is its own square, how often the element stands in the table, its
   diagonal, row and column, and how many elements it commutes with (1 to 4, 7).
   Says these eight numbers in this order; writes nothing but the answer. */
void tickdrizzle_profile(const uint8_t *cells, size_t cells_length, size_t order, size_t element,
                         uint64_t *TICKDRIZZLE_RESTRICT answer);

/* Asks whether a map is an embedding of the source in the target (1 to 4 of the source, of the target, 5).
   Says TICKDRIZZLE_MAP_... and what goes with it; writes nothing but the answer. */
void tickdrizzle_check_map(const uint8_t *source, size_t source_length, size_t source_order, const uint8_t *target,
                           size_t target_length, size_t target_order, const uint8_t *map, size_t map_length,
                           uint64_t *TICKDRIZZLE_RESTRICT answer);

/* Asks whether the cells are a table of this order, by its generators: a list of elements of which all others are products, in any
   order and with repeats. Refused by 4 exactly where the check of the whole table is, but looks only at triples with their middle on the
   list, k * n * n for k different entries, and says the first of these that fails (questions 1 to 3, 50, 51, 4).
   Says no values; writes nothing but the answer. */
void tickdrizzle_check_generated(const uint8_t *cells, size_t cells_length, size_t order, const uint8_t *generators,
                                 size_t generators_length, uint64_t *TICKDRIZZLE_RESTRICT answer);

/* The smallest part of a table that holds the chosen elements and every product of its own members: its k elements in rising order, which
   are an embedding of the part in the table, and their own table, renumbered 1 to k (questions 1 to 4, 60, 61, 62).
   Says k; writes the first k bytes of elements and the first k * k bytes of part. */
void tickdrizzle_subsemigroup(const uint8_t *cells, size_t cells_length, size_t order, const uint8_t *chosen,
                              size_t chosen_length, uint8_t *TICKDRIZZLE_RESTRICT part, size_t part_length,
                              uint8_t *TICKDRIZZLE_RESTRICT elements, size_t elements_length,
                              uint64_t *TICKDRIZZLE_RESTRICT answer);

/*
 * The searches ask 1 to 4 of the source, of the target, 5 and 6, and say TICKDRIZZLE_FOUND or TICKDRIZZLE_NONE. Found:
 * map holds the map. None: there is no such map, and map is as it was. After both, scratch begins with a bit for each pair,
 * TICKDRIZZLE_SCRATCH_SIZE bytes of them: with k = (i - 1) * target order + (j - 1), scratch[k / 8] >> k % 8 & 1 is 1 where target
 * element j has the index and period (for isomorphisms: the profile; for reversed ones: the profile with
 * row and column counts exchanged) of source element i, else 0. Unused bits of the last byte
 * are 0. Lists are compared byte by byte from the front.
 */

/* The earliest embedding of the source in the target: a map with no two images equal that keeps every product.
   Writes map (only where found) and scratch. */
void tickdrizzle_first_embedding(const uint8_t *source, size_t source_length, size_t source_order, const uint8_t *target,
                                 size_t target_length, size_t target_order, uint8_t *TICKDRIZZLE_RESTRICT map,
                                 size_t map_length, uint8_t *TICKDRIZZLE_RESTRICT scratch, size_t scratch_length,
                                 uint64_t *TICKDRIZZLE_RESTRICT answer);

/* The earliest embedding that is later than the bytes in map, whatever they are.
   Writes map (only where found) and scratch. */
void tickdrizzle_next_embedding(const uint8_t *source, size_t source_length, size_t source_order, const uint8_t *target,
                                size_t target_length, size_t target_order, uint8_t *TICKDRIZZLE_RESTRICT map,
                                size_t map_length, uint8_t *TICKDRIZZLE_RESTRICT scratch, size_t scratch_length,
                                uint64_t *TICKDRIZZLE_RESTRICT answer);

/* The earliest isomorphism of the source onto the target: an embedding between tables of one order.
   Writes map (only where found) and scratch. */
void tickdrizzle_first_isomorphism(const uint8_t *source, size_t source_length, size_t source_order, const uint8_t *target,
                                   size_t target_length, size_t target_order, uint8_t *TICKDRIZZLE_RESTRICT map,
                                   size_t map_length, uint8_t *TICKDRIZZLE_RESTRICT scratch, size_t scratch_length,
                                   uint64_t *TICKDRIZZLE_RESTRICT answer);

/* The earliest isomorphism that is later than the bytes in map: called again and again from zeros, it finds each one once.
   Writes map (only where found) and scratch. */
void tickdrizzle_next_isomorphism(const uint8_t *source, size_t source_length, size_t source_order, const uint8_t *target,
                                  size_t target_length, size_t target_order, uint8_t *TICKDRIZZLE_RESTRICT map,
                                  size_t map_length, uint8_t *TICKDRIZZLE_RESTRICT scratch, size_t scratch_length,
                                  uint64_t *TICKDRIZZLE_RESTRICT answer);

/* The earliest reversed isomorphism of the source onto the target: one to one, onto, and the image of i.j is the image of j
   times the image of i. Writes map (only where found) and scratch. */
void tickdrizzle_first_reversed_isomorphism(const uint8_t *source, size_t source_length, size_t source_order, const uint8_t *target,
                                            size_t target_length, size_t target_order, uint8_t *TICKDRIZZLE_RESTRICT map,
                                            size_t map_length, uint8_t *TICKDRIZZLE_RESTRICT scratch, size_t scratch_length,
                                            uint64_t *TICKDRIZZLE_RESTRICT answer);

/* The earliest reversed isomorphism that is later than the bytes in map. Writes map (only where found) and scratch. */
void tickdrizzle_next_reversed_isomorphism(const uint8_t *source, size_t source_length, size_t source_order, const uint8_t *target,
                                           size_t target_length, size_t target_order, uint8_t *TICKDRIZZLE_RESTRICT map,
                                           size_t map_length, uint8_t *TICKDRIZZLE_RESTRICT scratch, size_t scratch_length,
                                           uint64_t *TICKDRIZZLE_RESTRICT answer);

/* The table of all transformations of degree points, numbered in list order, composed from left to right (questions 8, 9).
   Says the order: 1, 4 or 27; writes the first order * order bytes of cells. */
void tickdrizzle_transformations(size_t degree, uint8_t *TICKDRIZZLE_RESTRICT cells, size_t cells_length,
                                 uint64_t *TICKDRIZZLE_RESTRICT answer);

/* The cells of a CSV text: records closed by CR LF, the last one or not, no header, no quotes
   (20, 21, 24, 23 and 25 of each field, 26, 1, 27; neither 3 nor 4).
   Says the order; writes the first order * order bytes of cells. */
void tickdrizzle_load(const uint8_t *text, size_t text_length, uint8_t *TICKDRIZZLE_RESTRICT cells, size_t cells_length,
                      uint64_t *TICKDRIZZLE_RESTRICT answer);

/* The CSV text of the cells, the same layout that is loaded (questions 1, 2, 3, 28).
   Says its length; writes as many bytes of text. */
void tickdrizzle_save(const uint8_t *cells, size_t cells_length, size_t order, uint8_t *TICKDRIZZLE_RESTRICT text,
                      size_t text_length, uint64_t *TICKDRIZZLE_RESTRICT answer);

/*
 * The searches with a limit say TICKDRIZZLE_FOUND or TICKDRIZZLE_NONE and the exact number of trials, or TICKDRIZZLE_STOPPED
 * where more are needed than the limit. A trial is one candidate, unused so far, tested as the image of the next element;
 * images are tried in rising order, elements from 1 upward. A larger limit never changes a map or a none. Stopped, map is as
 * it was, and scratch as after none.
 */

/* The earliest embedding within a limit of trials (questions 1 to 4 of the source, of the target, 5, 6).
   Writes map (only where found) and scratch. */
void tickdrizzle_first_embedding_within(const uint8_t *source, size_t source_length, size_t source_order,
                                        const uint8_t *target, size_t target_length, size_t target_order,
                                        uint8_t *TICKDRIZZLE_RESTRICT map, size_t map_length,
                                        uint8_t *TICKDRIZZLE_RESTRICT scratch, size_t scratch_length, uint32_t limit,
                                        uint64_t *TICKDRIZZLE_RESTRICT answer);

/* The earliest isomorphism within a limit of trials (questions 1 to 4 of the source, of the target, 5, 6).
   Writes map (only where found) and scratch. */
void tickdrizzle_first_isomorphism_within(const uint8_t *source, size_t source_length, size_t source_order,
                                          const uint8_t *target, size_t target_length, size_t target_order,
                                          uint8_t *TICKDRIZZLE_RESTRICT map, size_t map_length,
                                          uint8_t *TICKDRIZZLE_RESTRICT scratch, size_t scratch_length, uint32_t limit,
                                          uint64_t *TICKDRIZZLE_RESTRICT answer);

/* The earliest reversed isomorphism within a limit of trials (questions 1 to 4 of the source, of the target, 5, 6).
   Writes map (only where found) and scratch. */
void tickdrizzle_first_reversed_isomorphism_within(const uint8_t *source, size_t source_length, size_t source_order,
                                                   const uint8_t *target, size_t target_length, size_t target_order,
                                                   uint8_t *TICKDRIZZLE_RESTRICT map, size_t map_length,
                                                   uint8_t *TICKDRIZZLE_RESTRICT scratch, size_t scratch_length, uint32_t limit,
                                                   uint64_t *TICKDRIZZLE_RESTRICT answer);

/*
 * The searches for embeddings among given pairs. pairs is laid out as scratch is: with k = (i - 1) * target order + (j - 1),
 * pairs[k / 8] >> k % 8 & 1 is 1 where source element i may go to target element j. An embedding is allowed if that holds for each
 * element and its image. They say TICKDRIZZLE_FOUND or TICKDRIZZLE_NONE. After both, scratch has a 1 exactly where it has one after
 * tickdrizzle_first_embedding and pairs has one. Unused bits and later bytes of pairs are not looked at, and pairs is not written.
 * With all pairs marked, the two say and leave what tickdrizzle_first_embedding and tickdrizzle_next_embedding do.
 */

/* The earliest embedding that the pairs allow (questions 1 to 4 of the source, of the target, 5, 6, 70).
   Writes map (only where found) and scratch. */
void tickdrizzle_first_embedding_among(const uint8_t *source, size_t source_length, size_t source_order, const uint8_t *target,
                                       size_t target_length, size_t target_order, const uint8_t *pairs, size_t pairs_length,
                                       uint8_t *TICKDRIZZLE_RESTRICT map, size_t map_length,
                                       uint8_t *TICKDRIZZLE_RESTRICT scratch, size_t scratch_length,
                                       uint64_t *TICKDRIZZLE_RESTRICT answer);

/* The earliest embedding that the pairs allow and that is later than the bytes in map, whatever they are
   (questions 1 to 4 of the source, of the target, 5, 6, 70).
   Writes map (only where found) and scratch. */
void tickdrizzle_next_embedding_among(const uint8_t *source, size_t source_length, size_t source_order, const uint8_t *target,
                                      size_t target_length, size_t target_order, const uint8_t *pairs, size_t pairs_length,
                                      uint8_t *TICKDRIZZLE_RESTRICT map, size_t map_length,
                                      uint8_t *TICKDRIZZLE_RESTRICT scratch, size_t scratch_length,
                                      uint64_t *TICKDRIZZLE_RESTRICT answer);

/* The fewest rest positions: the least degree d from 1 to 3 whose table of transformations holds an embedding of the table, and for each
   element in turn the d positions, each 1 to d, where its image under the first embedding takes the points 1 to d. As transformations
   they compose as the table says (questions 1 to 4, 80).
   Says d, or 0 for none of these; writes the first order * d bytes of positions, or nothing. */
void tickdrizzle_least_degree(const uint8_t *cells, size_t cells_length, size_t order,
                              uint8_t *TICKDRIZZLE_RESTRICT positions, size_t positions_length,
                              uint64_t *TICKDRIZZLE_RESTRICT answer);

/* The names on a sheet, one after another in names, and their lengths, a byte each, in lengths. A sheet is CSV text with one record
   for each name, its number, rising by one from 1, and the name; fields quoted or not, records closed by CR LF, the last one or not. A
   name is 1 to 40 bytes from hexadecimal 20 to 7E, a backslash an ordinary one. The offending place is the length of the longest
   beginning of the text that some sheet starts with (40, 42 and 41 of each record, 27).
   Says the number of names; writes as many bytes of lengths, and of names the sum of these. */
void tickdrizzle_load_names(const uint8_t *text, size_t text_length, uint8_t *TICKDRIZZLE_RESTRICT names, size_t names_length,
                            uint8_t *TICKDRIZZLE_RESTRICT lengths, size_t lengths_length,
                            uint64_t *TICKDRIZZLE_RESTRICT answer);

/* The sheet of names that stand one after another in names, with these lengths: exactly those with a comma or a quote mark are
   quoted, and each quote mark inside is doubled. Bytes of names past the last length are not looked at (42, 41 of each name, 28).
   Says its length; writes as many bytes of text. */
void tickdrizzle_save_names(const uint8_t *names, size_t names_length, const uint8_t *lengths, size_t lengths_length,
                            uint8_t *TICKDRIZZLE_RESTRICT text, size_t text_length, uint64_t *TICKDRIZZLE_RESTRICT answer);

/* The number of different copies of the source in the target: of the image sets of its embeddings, each of which comes from as many
   embeddings as the source has isomorphisms onto itself (questions 1 to 4 of the source, of the target, 6).
   Says TICKDRIZZLE_COUNTED and the number, or TICKDRIZZLE_MORE; writes scratch, as a search for embeddings does. */
void tickdrizzle_copies(const uint8_t *source, size_t source_length, size_t source_order, const uint8_t *target,
                        size_t target_length, size_t target_order, uint8_t *TICKDRIZZLE_RESTRICT scratch,
                        size_t scratch_length, uint64_t *TICKDRIZZLE_RESTRICT answer);

#undef TICKDRIZZLE_RESTRICT

/*
 * The same calls with structs and enums. Each is its call above with the fields of its tables as arguments, and hands back the numbers of
 * the answer under their names; nothing is computed here. All that is said above holds of these too. Where refusal.question is not
 * TICKDRIZZLE_ACCEPTED, the fields after refusal mean nothing.
 */

/* The text of the question with this number; an empty one where there is no such question. */
static inline const char *tickdrizzle_question_text(uint64_t number)
{
#define TICKDRIZZLE_CASE(name, number, text) \
    case number: \
        return text;
    switch (number) {
        TICKDRIZZLE_QUESTIONS(TICKDRIZZLE_CASE)
    default:
        return "";
    }
#undef TICKDRIZZLE_CASE
}

/* A table as it is lent: its cells, how many they are, and the order. */
struct tickdrizzle_table {
    const uint8_t *cells;
    size_t length;
    size_t order;
};

/* The earliest failed question, or TICKDRIZZLE_ACCEPTED; the table it is about; the values that it carries. */
struct tickdrizzle_refusal {
    enum tickdrizzle_question question;
    enum tickdrizzle_side side;
    uint64_t values[3];
};

/* An order, a length, a number of names, or a degree with 0 for none. */
struct tickdrizzle_size_answer {
    struct tickdrizzle_refusal refusal;
    size_t size;
};

struct tickdrizzle_index_period_answer {
    struct tickdrizzle_refusal refusal;
    size_t index, period, idempotent;
};

struct tickdrizzle_profile_answer {
    struct tickdrizzle_refusal refusal;
    size_t index, period, idempotent, frequency, diagonal, row, column, commuting;
};

/* Of an image outside the target i alone is said. */
struct tickdrizzle_map_answer {
    struct tickdrizzle_refusal refusal;
    enum tickdrizzle_map_outcome outcome;
    size_t i, j;
};

/* A search without a limit counts no trials and says 0, and so does one that stopped. */
struct tickdrizzle_search_answer {
    struct tickdrizzle_refusal refusal;
    enum tickdrizzle_search_outcome outcome;
    uint32_t trials;
};

struct tickdrizzle_copies_answer {
    struct tickdrizzle_refusal refusal;
    enum tickdrizzle_count_outcome outcome;
    size_t number;
};

static inline struct tickdrizzle_refusal tickdrizzle_refusal_of(const uint64_t *answer)
{
    struct tickdrizzle_refusal refusal;
    refusal.question = (enum tickdrizzle_question)answer[0];
    refusal.side = (enum tickdrizzle_side)answer[1];
    refusal.values[0] = answer[2];
    refusal.values[1] = answer[3];
    refusal.values[2] = answer[4];
    return refusal;
}

static inline struct tickdrizzle_size_answer tickdrizzle_size_of(const uint64_t *answer)
{
    struct tickdrizzle_size_answer said;
    said.refusal = tickdrizzle_refusal_of(answer);
    said.size = (size_t)answer[2];
    return said;
}

static inline struct tickdrizzle_search_answer tickdrizzle_search_of(const uint64_t *answer)
{
    struct tickdrizzle_search_answer said;
    said.refusal = tickdrizzle_refusal_of(answer);
    said.outcome = (enum tickdrizzle_search_outcome)answer[2];
    said.trials = (uint32_t)answer[3];
    return said;
}

static inline struct tickdrizzle_refusal tickdrizzle_table_check(struct tickdrizzle_table table)
{
    uint64_t answer[TICKDRIZZLE_ANSWERS];
    tickdrizzle_check_table(table.cells, table.length, table.order, answer);
    return tickdrizzle_refusal_of(answer);
}

static inline struct tickdrizzle_index_period_answer tickdrizzle_table_index_period(struct tickdrizzle_table table, size_t element)
{
    struct tickdrizzle_index_period_answer said;
    uint64_t answer[TICKDRIZZLE_ANSWERS];
    tickdrizzle_index_period(table.cells, table.length, table.order, element, answer);
    said.refusal = tickdrizzle_refusal_of(answer);
    said.index = (size_t)answer[2];
    said.period = (size_t)answer[3];
    said.idempotent = (size_t)answer[4];
    return said;
}

static inline struct tickdrizzle_profile_answer tickdrizzle_table_profile(struct tickdrizzle_table table, size_t element)
{
    struct tickdrizzle_profile_answer said;
    uint64_t answer[TICKDRIZZLE_ANSWERS];
    tickdrizzle_profile(table.cells, table.length, table.order, element, answer);
    said.refusal = tickdrizzle_refusal_of(answer);
    said.index = (size_t)answer[2];
    said.period = (size_t)answer[3];
    said.idempotent = (size_t)answer[4];
    said.frequency = (size_t)answer[5];
    said.diagonal = (size_t)answer[6];
    said.row = (size_t)answer[7];
    said.column = (size_t)answer[8];
    said.commuting = (size_t)answer[9];
    return said;
}

static inline struct tickdrizzle_map_answer tickdrizzle_table_check_map(struct tickdrizzle_table source, struct tickdrizzle_table target,
                                                                        const uint8_t *map, size_t map_length)
{
    struct tickdrizzle_map_answer said;
    uint64_t answer[TICKDRIZZLE_ANSWERS];
    tickdrizzle_check_map(source.cells, source.length, source.order, target.cells, target.length, target.order, map, map_length, answer);
    said.refusal = tickdrizzle_refusal_of(answer);
    said.outcome = (enum tickdrizzle_map_outcome)answer[2];
    said.i = (size_t)answer[3];
    said.j = (size_t)answer[4];
    return said;
}

static inline struct tickdrizzle_refusal tickdrizzle_table_check_generated(struct tickdrizzle_table table, const uint8_t *generators,
                                                                           size_t generators_length)
{
    uint64_t answer[TICKDRIZZLE_ANSWERS];
    tickdrizzle_check_generated(table.cells, table.length, table.order, generators, generators_length, answer);
    return tickdrizzle_refusal_of(answer);
}

static inline struct tickdrizzle_size_answer tickdrizzle_table_subsemigroup(struct tickdrizzle_table table, const uint8_t *chosen,
                                                                            size_t chosen_length, uint8_t *part, size_t part_length,
                                                                            uint8_t *elements, size_t elements_length)
{
    uint64_t answer[TICKDRIZZLE_ANSWERS];
    tickdrizzle_subsemigroup(table.cells, table.length, table.order, chosen, chosen_length, part, part_length, elements, elements_length,
                             answer);
    return tickdrizzle_size_of(answer);
}

/* tickdrizzle_table_first_embedding(source, target, map, map_length, scratch, scratch_length), and so on for each search. */
#define TICKDRIZZLE_SEARCH(name) \
    static inline struct tickdrizzle_search_answer tickdrizzle_table_##name( \
        struct tickdrizzle_table source, struct tickdrizzle_table target, uint8_t *map, size_t map_length, uint8_t *scratch, \
        size_t scratch_length) \
    { \
        uint64_t answer[TICKDRIZZLE_ANSWERS]; \
        tickdrizzle_##name(source.cells, source.length, source.order, target.cells, target.length, target.order, map, map_length, scratch, \
                           scratch_length, answer); \
        return tickdrizzle_search_of(answer); \
    }
TICKDRIZZLE_SEARCH(first_embedding)
TICKDRIZZLE_SEARCH(next_embedding)
TICKDRIZZLE_SEARCH(first_isomorphism)
TICKDRIZZLE_SEARCH(next_isomorphism)
TICKDRIZZLE_SEARCH(first_reversed_isomorphism)
TICKDRIZZLE_SEARCH(next_reversed_isomorphism)
#undef TICKDRIZZLE_SEARCH

/* tickdrizzle_table_first_embedding_within(source, target, map, map_length, scratch, scratch_length, limit), and so on. */
#define TICKDRIZZLE_LIMITED_SEARCH(name) \
    static inline struct tickdrizzle_search_answer tickdrizzle_table_##name( \
        struct tickdrizzle_table source, struct tickdrizzle_table target, uint8_t *map, size_t map_length, uint8_t *scratch, \
        size_t scratch_length, uint32_t limit) \
    { \
        uint64_t answer[TICKDRIZZLE_ANSWERS]; \
        tickdrizzle_##name(source.cells, source.length, source.order, target.cells, target.length, target.order, map, map_length, scratch, \
                           scratch_length, limit, answer); \
        return tickdrizzle_search_of(answer); \
    }
TICKDRIZZLE_LIMITED_SEARCH(first_embedding_within)
TICKDRIZZLE_LIMITED_SEARCH(first_isomorphism_within)
TICKDRIZZLE_LIMITED_SEARCH(first_reversed_isomorphism_within)
#undef TICKDRIZZLE_LIMITED_SEARCH

/* tickdrizzle_table_first_embedding_among(source, target, pairs, pairs_length, map, map_length, scratch, scratch_length), and so on. */
#define TICKDRIZZLE_SEARCH_AMONG(name) \
    static inline struct tickdrizzle_search_answer tickdrizzle_table_##name( \
        struct tickdrizzle_table source, struct tickdrizzle_table target, const uint8_t *pairs, size_t pairs_length, uint8_t *map, \
        size_t map_length, uint8_t *scratch, size_t scratch_length) \
    { \
        uint64_t answer[TICKDRIZZLE_ANSWERS]; \
        tickdrizzle_##name(source.cells, source.length, source.order, target.cells, target.length, target.order, pairs, pairs_length, map, \
                           map_length, scratch, scratch_length, answer); \
        return tickdrizzle_search_of(answer); \
    }
TICKDRIZZLE_SEARCH_AMONG(first_embedding_among)
TICKDRIZZLE_SEARCH_AMONG(next_embedding_among)
#undef TICKDRIZZLE_SEARCH_AMONG

static inline struct tickdrizzle_size_answer tickdrizzle_table_transformations(size_t degree, uint8_t *cells, size_t cells_length)
{
    uint64_t answer[TICKDRIZZLE_ANSWERS];
    tickdrizzle_transformations(degree, cells, cells_length, answer);
    return tickdrizzle_size_of(answer);
}

static inline struct tickdrizzle_size_answer tickdrizzle_table_load(const uint8_t *text, size_t text_length, uint8_t *cells,
                                                                    size_t cells_length)
{
    uint64_t answer[TICKDRIZZLE_ANSWERS];
    tickdrizzle_load(text, text_length, cells, cells_length, answer);
    return tickdrizzle_size_of(answer);
}

static inline struct tickdrizzle_size_answer tickdrizzle_table_save(struct tickdrizzle_table table, uint8_t *text, size_t text_length)
{
    uint64_t answer[TICKDRIZZLE_ANSWERS];
    tickdrizzle_save(table.cells, table.length, table.order, text, text_length, answer);
    return tickdrizzle_size_of(answer);
}

static inline struct tickdrizzle_size_answer tickdrizzle_table_least_degree(struct tickdrizzle_table table, uint8_t *positions,
                                                                            size_t positions_length)
{
    uint64_t answer[TICKDRIZZLE_ANSWERS];
    tickdrizzle_least_degree(table.cells, table.length, table.order, positions, positions_length, answer);
    return tickdrizzle_size_of(answer);
}

static inline struct tickdrizzle_copies_answer tickdrizzle_table_copies(struct tickdrizzle_table source, struct tickdrizzle_table target,
                                                                        uint8_t *scratch, size_t scratch_length)
{
    struct tickdrizzle_copies_answer said;
    uint64_t answer[TICKDRIZZLE_ANSWERS];
    tickdrizzle_copies(source.cells, source.length, source.order, target.cells, target.length, target.order, scratch, scratch_length, answer);
    said.refusal = tickdrizzle_refusal_of(answer);
    said.outcome = (enum tickdrizzle_count_outcome)answer[2];
    said.number = (size_t)answer[3];
    return said;
}

static inline struct tickdrizzle_size_answer tickdrizzle_names_load(const uint8_t *text, size_t text_length, uint8_t *names,
                                                                    size_t names_length, uint8_t *lengths, size_t lengths_length)
{
    uint64_t answer[TICKDRIZZLE_ANSWERS];
    tickdrizzle_load_names(text, text_length, names, names_length, lengths, lengths_length, answer);
    return tickdrizzle_size_of(answer);
}

static inline struct tickdrizzle_size_answer tickdrizzle_names_save(const uint8_t *names, size_t names_length, const uint8_t *lengths,
                                                                    size_t lengths_length, uint8_t *text, size_t text_length)
{
    uint64_t answer[TICKDRIZZLE_ANSWERS];
    tickdrizzle_save_names(names, names_length, lengths, lengths_length, text, text_length, answer);
    return tickdrizzle_size_of(answer);
}

#ifdef __cplusplus
}
#endif

#endif
