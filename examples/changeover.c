/* changeover.c: a whole changeover. Reads a problem file (its path as argument, else standard input), takes for the standing
   matrix what one sweep of the rows gives, settles the new matrix column by column, and asks after each column which of the two
   lends the rows. Prints the laws of the language, the rows that are lent in the end with their next hops, and the forwarding table.
   A refusal is printed in words and ends with status 1. Every function of the header is called.

   cc -Iinclude examples/changeover.c target/staticlib/libtronglephu.a -o changeover */
#include <stdio.h>
#include <stdlib.h>

#include "tronglephu.h"

#define LARGEST_FILE 65536

/* What the file says: sizes, mode and language, and its arcs and mapping with their exact lengths. */
struct network {
    uint32_t n, m, mode;
    uint16_t language[TRONGLEPHU_LANGUAGE_NUMBERS];
    uint32_t arcs[TRONGLEPHU_MOST_MATRIX_WORDS], mapping[TRONGLEPHU_MOST_TABLE_WORDS];
    size_t matrix_words, table_words;
};

/* ---- refusals in words */

static const char *buffer_name(uint32_t which)
{
    static const char *const names[] = {"no buffer", "A", "R", "M", "F", "the standing matrix", "the problem or report"};
    return which < sizeof names / sizeof *names ? names[which] : names[0];
}

static void explain_file(struct tronglephu_answer x)
{
    static const char *const words[] = {
        "done", "the count of bytes is wrong, a field or record is cut, or bytes are left over", "the version is not 1",
        "n, m or the mode is out of range", "an unknown tag, or a width limit of 0", "a fourth product tag",
        "a value out of range", "no such node or destination", "the list does not ascend"};
    if (x.number == 9)
        fprintf(stderr, "buffer %u is too short\n", x.which);
    else if (x.number < sizeof words / sizeof *words)
        fprintf(stderr, "%s (byte %u)\n", words[x.number], x.place);
    else
        fprintf(stderr, "refusal %u %u %u\n", x.number, x.which, x.place);
}

static void explain_call(struct tronglephu_answer x)
{
    static const char *const sizes[] = {"?", "n", "m", "the mode"};
    switch (x.number) {
    case 3: fprintf(stderr, "%s is out of range\n", sizes[x.which & 3]); break;
    case 4: fprintf(stderr, "component %u has an unknown kind, or is a width with limit 0\n", x.place); break;
    case 5: fprintf(stderr, "the count of components is not 1 to 4\n"); break;
    case 6: fprintf(stderr, "%s is malformed at word %u\n", buffer_name(x.which), x.place); break;
    case 7: fprintf(stderr, "no such node or step: number %u of the arguments or the list\n", x.place); break;
    case 9: fprintf(stderr, "%s has another length\n", buffer_name(x.which)); break;
    case 10: fprintf(stderr, "the language lacks law %c\n", "?DUC"[x.which & 3]); break;
    case 11: fprintf(stderr, "step %u would store a sum above 983,025; %u steps are done\n", x.place, x.value); break;
    case 12: fprintf(stderr, "R does not satisfy the routing equation\n"); break;
    case 13: fprintf(stderr, "over %d steps\n", TRONGLEPHU_MOST_STEPS); break;
    default: fprintf(stderr, "refusal %u %u %u\n", x.number, x.which, x.place);
    }
}

/* The value of an answer that is done; any other ends the program. */
static uint32_t done(const char *call, struct tronglephu_answer x)
{
    if (x.number == 0)
        return x.value;
    fprintf(stderr, "%s: refused %u %u %u: ", call, x.number, x.which, x.place);
    explain_call(x);
    exit(1);
}

/* ---- the problem */

static size_t read_bytes(const char *path, uint8_t *bytes, size_t room)
{
    FILE *file = path ? fopen(path, "rb") : stdin;
    if (!file) {
        perror(path);
        exit(2);
    }
    size_t count = fread(bytes, 1, room, file);
    if (ferror(file)) {
        perror(path ? path : "standard input");
        exit(2);
    }
    if (path)
        fclose(file);
    return count;
}

static void read_network(const char *path, struct network *net)
{
    static uint8_t bytes[LARGEST_FILE + 1];
    uint32_t problem[TRONGLEPHU_PROBLEM_WORDS];
    size_t count = read_bytes(path, bytes, sizeof bytes);
    if (count > LARGEST_FILE) {
        fprintf(stderr, "read: over %d bytes\n", LARGEST_FILE);
        exit(1);
    }
    struct tronglephu_answer x = tronglephu_read(bytes, count, net->arcs, TRONGLEPHU_MOST_MATRIX_WORDS, net->mapping,
                                                 TRONGLEPHU_MOST_TABLE_WORDS, problem, TRONGLEPHU_PROBLEM_WORDS);
    if (x.number != 0) {
        fprintf(stderr, "read: refused %u %u %u: ", x.number, x.which, x.place);
        explain_file(x);
        exit(1);
    }
    net->n = problem[0];
    net->m = problem[1];
    net->mode = problem[2];
    for (size_t k = 0; k < TRONGLEPHU_LANGUAGE_NUMBERS; k++)
        net->language[k] = (uint16_t)problem[3 + k];
    net->matrix_words = TRONGLEPHU_MATRIX_WORDS(net->n);
    net->table_words = TRONGLEPHU_TABLE_WORDS(net->n, net->m);
}

/* ---- the calls on a network */

static void fresh(const struct network *net, uint32_t *r)
{
    done("fresh", tronglephu_fresh(net->language, TRONGLEPHU_LANGUAGE_NUMBERS, net->n, r, net->matrix_words));
}

static void steps(const struct network *net, uint32_t *r, const uint32_t *list, size_t count)
{
    done("steps", tronglephu_steps(net->language, TRONGLEPHU_LANGUAGE_NUMBERS, net->n, net->arcs, net->matrix_words, r,
                                   net->matrix_words, list, count));
}

static uint32_t lender(const struct network *net, const uint32_t *standing, const uint32_t *newer, uint32_t i)
{
    return done("handover", tronglephu_handover(net->language, TRONGLEPHU_LANGUAGE_NUMBERS, net->n, net->arcs, net->matrix_words,
                                                standing, net->matrix_words, newer, net->matrix_words, i));
}

static uint32_t next_hop(const struct network *net, const uint32_t *r, uint32_t i, uint32_t j)
{
    return done("next hop", tronglephu_next_hop(net->language, TRONGLEPHU_LANGUAGE_NUMBERS, net->n, net->arcs, net->matrix_words,
                                                r, net->matrix_words, i, j));
}

static int solves(const struct network *net, const uint32_t *r)
{
    return (int)done("equation", tronglephu_equation(net->language, TRONGLEPHU_LANGUAGE_NUMBERS, net->n, net->arcs,
                                                     net->matrix_words, r, net->matrix_words));
}

/* ---- printing */

static void print_values(const struct network *net, const uint32_t *words)
{
    if (words[0] == TRONGLEPHU_ONES) {
        printf(" -");
        return;
    }
    for (uint32_t k = 0; k < net->language[0]; k++)
        printf(" %u", words[k]);
}

/* Which laws the language has, and for one that it lacks the weights s, x and y that break it. */
static void print_laws(const struct network *net)
{
    static const char names[] = "DUC";
    static const uint32_t bits[] = {TRONGLEPHU_LAW_D, TRONGLEPHU_LAW_U, TRONGLEPHU_LAW_C};
    uint32_t report[TRONGLEPHU_REPORT_WORDS];
    uint32_t held = done("laws", tronglephu_laws(net->language, TRONGLEPHU_LANGUAGE_NUMBERS, report, TRONGLEPHU_REPORT_WORDS));
    for (size_t law = 0; law < 3; law++) {
        printf("law %c: %s", names[law], held & bits[law] ? "held" : "broken by");
        for (size_t k = 0; k < 3 && !(held & bits[law]); k++)
            print_values(net, report + (3 * law + k) * TRONGLEPHU_WEIGHT_WORDS);
        printf("\n");
    }
}

/* Row i as it is lent: for each j the weight, and the next hop where there is one. */
static void print_row(const struct network *net, const uint32_t *r, uint32_t i)
{
    const uint32_t *row = r + (size_t)i * net->n * TRONGLEPHU_WEIGHT_WORDS;
    for (uint32_t j = 0; j < net->n; j++) {
        uint32_t hop = next_hop(net, r, i, j);
        printf("  to %u:", j);
        print_values(net, row + (size_t)j * TRONGLEPHU_WEIGHT_WORDS);
        if (hop != TRONGLEPHU_NO_NODE)
            printf(" by %u", hop);
        printf("\n");
    }
}

static void print_table(const struct network *net, const uint32_t *r)
{
    static uint32_t f[TRONGLEPHU_MOST_TABLE_WORDS];
    done("forward", tronglephu_forward(net->language, TRONGLEPHU_LANGUAGE_NUMBERS, net->n, net->m, net->mode, net->arcs,
                                       net->matrix_words, r, net->matrix_words, net->mapping, net->table_words, f,
                                       net->table_words));
    for (uint32_t i = 0; i < net->n; i++)
        for (uint32_t d = 0; d < net->m; d++) {
            const uint32_t *entry = f + TRONGLEPHU_ENTRY_AT(net->m, i, d);
            printf("forward from %u to destination %u:", i, d);
            print_values(net, entry);
            if (entry[0] != TRONGLEPHU_ONES && net->mode != TRONGLEPHU_PLAIN)
                printf(" outside %u", entry[TRONGLEPHU_WEIGHT_WORDS]);
            printf("\n");
        }
}

/* ---- the changeover */

int main(int count, char **words)
{
    static struct network net;
    static uint32_t standing[TRONGLEPHU_MOST_MATRIX_WORDS], newer[TRONGLEPHU_MOST_MATRIX_WORDS];
    uint32_t rows[TRONGLEPHU_MOST_NODES];
    read_network(count > 1 ? words[1] : NULL, &net);
    for (uint32_t i = 0; i < net.n; i++)
        rows[i] = i;
    fresh(&net, standing);
    print_laws(&net);
    steps(&net, standing, rows, net.n);
    fresh(&net, newer);
    for (uint32_t j = 0; j < net.n; j++) {
        uint32_t settle = TRONGLEPHU_SETTLE(j);
        steps(&net, newer, &settle, 1);
        printf("column %u settled: the %s matrix lends\n", j,
               lender(&net, standing, newer, 0) == TRONGLEPHU_NEWER ? "new" : "standing");
    }
    printf("the new matrix %s the equation\n", solves(&net, newer) ? "satisfies" : "does not satisfy");
    for (uint32_t i = 0; i < net.n; i++) {
        int is_new = lender(&net, standing, newer, i) == TRONGLEPHU_NEWER;
        printf("row %u, lent by the %s matrix\n", i, is_new ? "new" : "standing");
        print_row(&net, is_new ? newer : standing, i);
    }
    if (net.m > 0)
        print_table(&net, newer);
    return 0;
}
