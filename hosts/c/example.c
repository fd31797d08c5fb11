/* Prints the earliest embedding of one table in another, or in words what is wrong and where: example SOURCE.csv TARGET.csv
   Ends with 0 found, 1 none, 2 refused, 4 reading or writing failed, 64 usage. */
#include <inttypes.h>
#include <stdio.h>

#include "tickdrizzle.h"

enum { FOUND = 0, NONE = 1, REFUSED = 2, FAILED = 4, USAGE = 64 };

struct table {
    const char *name;
    uint8_t cells[TICKDRIZZLE_MOST_CELLS];
    size_t length; /* of the part of cells that is the table */
    size_t order;
};

/* The product i.j, of any cells. */
static unsigned product(const struct table *table, uint64_t i, uint64_t j)
{
    return table->cells[(i - 1) * table->order + (j - 1)];
}

/* Says what is wrong with a table that was loaded. */
static void explain_table(const struct table *table, const uint64_t *answer)
{
    uint64_t i = answer[2], j = answer[3], k = answer[4];
    switch (answer[0]) {
    case TICKDRIZZLE_NO_CELL_RANGE:
        fprintf(stderr, "row %" PRIu64 ", column %" PRIu64 " is %d: expected 1 to %zu\n", (i - 1) / table->order + 1,
                (i - 1) % table->order + 1, table->cells[i - 1], table->order);
        break;
    case TICKDRIZZLE_NO_ASSOCIATIVITY:
        fprintf(stderr, "(%" PRIu64 ".%" PRIu64 ").%" PRIu64 " = %u, but %" PRIu64 ".(%" PRIu64 ".%" PRIu64 ") = %u\n", i, j, k,
                product(table, product(table, i, j), k), i, j, k, product(table, i, product(table, j, k)));
        break;
    default:
        fprintf(stderr, "question %" PRIu64 "\n", answer[0]);
    }
}

/* Prints the row and the column in which a byte stands. */
static void print_place(const uint8_t *text, size_t byte)
{
    size_t row = 1, column = 1;
    for (size_t i = 0; i < byte; i++) {
        if (text[i] == '\n') {
            row++;
            column = 1;
        } else if (text[i] == ',') {
            column++;
        }
    }
    fprintf(stderr, "row %zu, column %zu: ", row, column);
}

/* How many digits stand there. */
static size_t digits(const uint8_t *text, size_t length, size_t byte)
{
    size_t end = byte;
    while (end < length && text[end] >= '0' && text[end] <= '9')
        end++;
    return end - byte;
}

/* Whether these digits are no cell: none, more than three, a leading 0, or a number above the greatest order. */
static int is_bad(const uint8_t *cell, size_t length)
{
    int number = 0;
    if (length == 0 || length > 3 || cell[0] == '0')
        return 1;
    for (size_t i = 0; i < length; i++)
        number = 10 * number + (cell[i] - '0');
    return number > TICKDRIZZLE_GREATEST_ORDER;
}

/* Where the first bad cell starts, in a text of digits, commas and CR LF that has one. */
static size_t first_bad_cell(const uint8_t *text, size_t length)
{
    size_t byte = 0, end = digits(text, length, 0);
    while (!is_bad(text + byte, end - byte) && end < length) {
        byte = end + (text[end] == ',' ? 1 : 2);
        end = byte + digits(text, length, byte);
    }
    return byte;
}

/* How many cells the row has that starts at a byte; the byte after its CR LF, or the length. */
static size_t row_cells(const uint8_t *text, size_t length, size_t *byte)
{
    size_t cells = 1;
    while (*byte < length && text[*byte] != '\n')
        cells += text[(*byte)++] == ',';
    *byte += *byte < length;
    return cells;
}

/* Says which row is not as long as the first, or how many rows there are. */
static void explain_rows(const uint8_t *text, size_t length)
{
    size_t byte = 0, rows = 1, first = row_cells(text, length, &byte), cells = first;
    while (byte < length && cells == first) {
        cells = row_cells(text, length, &byte);
        rows++;
    }
    if (cells != first)
        fprintf(stderr, "row %zu has %zu cells, the first has %zu\n", rows, cells, first);
    else
        fprintf(stderr, "%zu rows of %zu cells: expected %zu rows\n", rows, first, first);
}

/* Says what is wrong with a text. */
static void explain_text(const uint8_t *text, size_t length, const uint64_t *answer)
{
    switch (answer[0]) {
    case TICKDRIZZLE_NO_TEXT_BYTE:
        print_place(text, (size_t)answer[2]);
        break;
    case TICKDRIZZLE_NO_FIELD_START:
    case TICKDRIZZLE_NO_FIELD_LENGTH:
    case TICKDRIZZLE_NO_FIELD_RANGE:
        print_place(text, first_bad_cell(text, length));
        break;
    }
    switch (answer[0]) {
    case TICKDRIZZLE_NO_TEXT_LENGTH:
        fprintf(stderr, "the file is empty or longer than %d bytes\n", TICKDRIZZLE_LONGEST_TEXT);
        break;
    case TICKDRIZZLE_NO_TEXT_BYTE:
        fputs("expected digits, a comma, or CR LF\n", stderr);
        break;
    case TICKDRIZZLE_NO_FIELD_START:
        fputs("a number starts with 0\n", stderr);
        break;
    case TICKDRIZZLE_NO_FIELD_LENGTH:
        fputs("the cell is empty or has more than three digits\n", stderr);
        break;
    case TICKDRIZZLE_NO_FIELD_RANGE:
        fprintf(stderr, "the number is above %d\n", TICKDRIZZLE_GREATEST_ORDER);
        break;
    case TICKDRIZZLE_NO_SQUARE:
        explain_rows(text, length);
        break;
    default:
        fprintf(stderr, "more than %d rows\n", TICKDRIZZLE_GREATEST_ORDER);
    }
}

/* Loads a table from a file; how that ended. Of a longer text one byte too many is read, so that it is refused. */
static int load(const char *name, struct table *table)
{
    static uint8_t text[TICKDRIZZLE_LONGEST_TEXT + 1];
    uint64_t answer[TICKDRIZZLE_ANSWERS];
    FILE *file = fopen(name, "rb");
    if (file == NULL) {
        perror(name);
        return FAILED;
    }
    size_t length = fread(text, 1, sizeof text, file);
    int failed = ferror(file);
    fclose(file);
    if (failed) {
        fprintf(stderr, "%s: reading failed\n", name);
        return FAILED;
    }
    tickdrizzle_load(text, length, table->cells, sizeof table->cells, answer);
    if (answer[0] != 0) {
        fprintf(stderr, "%s: refused: ", name);
        explain_text(text, length, answer);
        return REFUSED;
    }
    table->name = name;
    table->order = (size_t)answer[2];
    table->length = table->order * table->order;
    return FOUND;
}

/* Prints the map, or that there is none. */
static int print_answer(const struct table *source, const uint8_t *map, const uint64_t *answer)
{
    if (answer[2] == TICKDRIZZLE_NONE)
        puts("none");
    for (size_t i = 0; answer[2] == TICKDRIZZLE_FOUND && i < source->order; i++)
        printf("%zu -> %d\n", i + 1, map[i]);
    if (fflush(stdout) != 0 || ferror(stdout)) {
        perror("writing the answer");
        return FAILED;
    }
    return answer[2] == TICKDRIZZLE_FOUND ? FOUND : NONE;
}

int main(int count, char **arguments)
{
    static struct table source, target;
    static uint8_t map[TICKDRIZZLE_GREATEST_ORDER];
    static uint8_t scratch[TICKDRIZZLE_MOST_SCRATCH];
    uint64_t answer[TICKDRIZZLE_ANSWERS];
    if (count != 3) {
        fprintf(stderr, "usage: %s SOURCE.csv TARGET.csv\n", arguments[0]);
        return USAGE;
    }
    int loaded = load(arguments[1], &source);
    if (loaded == FOUND)
        loaded = load(arguments[2], &target);
    if (loaded != FOUND)
        return loaded;
    tickdrizzle_first_embedding(source.cells, source.length, source.order, target.cells, target.length, target.order, map,
                                source.order, scratch, sizeof scratch, answer);
    if (answer[0] != 0) {
        const struct table *refused = answer[1] == TICKDRIZZLE_TARGET ? &target : &source;
        fprintf(stderr, "%s: refused: ", refused->name);
        explain_table(refused, answer);
        return REFUSED;
    }
    return print_answer(&source, map, answer);
}
