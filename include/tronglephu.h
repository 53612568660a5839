/* tronglephu.h: the routing library for C.

   Every function takes every input and ends: there is no undefined case as long as the pointers are right (below). A function
   either does its work, or refuses by number, which and place and writes nothing; steps alone may stop after some steps (11).
   Nothing is kept between calls: no heap, no globals, so calls on different buffers may run at the same time.

   Pointers. A slice is a pointer and then its count of elements (not of bytes). A pointer is valid and aligned for its count;
   it is not null, also with count 0. A buffer that a call writes overlaps no other buffer of that call.

   Sizes. n, the nodes, is 1..16; m, the destinations, is 0..32 (1..32 when forwarding). Nodes are 0..n-1, destinations 0..m-1.
   Lengths are exact, but for the buffers of tronglephu_read and the report of tronglephu_laws, which may be longer.

   A language is nine numbers: the count of its components, 1..4, then kind and limit for each of four places. Dist and gain
   ignore their limit, a width's limit is 1..65,535, a class's 0..65,535. Places after the count are ignored. A slice of another
   length is taken as count 0, so refusal 5; an unknown kind is refusal 4, each in its order.

   A weight is four words: the value of each component, then 0. No route is four words of TRONGLEPHU_ONES. A table's entry is
   five words: a route and the outside number t, 0..65,535 (0 in plain mode); an empty entry is five words of TRONGLEPHU_ONES.
   Other patterns are malformed. Sums (dist, gain) are at most 65,535 in arcs and mappings, 983,025 in a matrix. */
#ifndef TRONGLEPHU_H
#define TRONGLEPHU_H

#include <stddef.h>
#include <stdint.h>

#ifdef __cplusplus
extern "C" {
#endif

/* The words of a weight and of a table's entry. */
#define TRONGLEPHU_WEIGHT_WORDS 4
#define TRONGLEPHU_ENTRY_WORDS 5

/* The words of an n x n matrix, and of a table of n nodes and m destinations. */
#define TRONGLEPHU_MATRIX_WORDS(n) ((size_t)(n) * (size_t)(n) * TRONGLEPHU_WEIGHT_WORDS)
#define TRONGLEPHU_TABLE_WORDS(n, m) ((size_t)(n) * (size_t)(m) * TRONGLEPHU_ENTRY_WORDS)

/* The first word of entry (i, j) of a matrix, and of entry (i, d) of a table. */
#define TRONGLEPHU_WEIGHT_AT(n, i, j) (((size_t)(i) * (n) + (j)) * TRONGLEPHU_WEIGHT_WORDS)
#define TRONGLEPHU_ENTRY_AT(m, i, d) (((size_t)(i) * (m) + (d)) * TRONGLEPHU_ENTRY_WORDS)

/* The largest network, and the words that the reader needs for it. */
#define TRONGLEPHU_MOST_NODES 16
#define TRONGLEPHU_MOST_DESTINATIONS 32
#define TRONGLEPHU_MOST_MATRIX_WORDS 1024
#define TRONGLEPHU_MOST_TABLE_WORDS 2560

/* The numbers of a language; the words of a problem and of a law report. */
#define TRONGLEPHU_LANGUAGE_NUMBERS 9
#define TRONGLEPHU_PROBLEM_WORDS 12
#define TRONGLEPHU_REPORT_WORDS 36

/* The word of which "no route" and "empty" are made. */
#define TRONGLEPHU_ONES UINT32_C(4294967295)

/* The kinds of a component. */
#define TRONGLEPHU_DIST 1
#define TRONGLEPHU_WIDTH 2
#define TRONGLEPHU_CLASS 3
#define TRONGLEPHU_GAIN 4

/* The modes of forwarding: by weight; by weight, then smaller t; by smaller t, then weight. */
#define TRONGLEPHU_PLAIN 1
#define TRONGLEPHU_HOT 2
#define TRONGLEPHU_COLD 3

/* A step list: i is row step i, TRONGLEPHU_SETTLE(j) settles column j. At most TRONGLEPHU_MOST_STEPS. */
#define TRONGLEPHU_SETTLE(j) (256 + (uint32_t)(j))
#define TRONGLEPHU_MOST_STEPS 4096

/* The value of tronglephu_next_hop for none, and the two values of tronglephu_handover. */
#define TRONGLEPHU_NO_NODE 255
#define TRONGLEPHU_NEWER 2
#define TRONGLEPHU_STANDING 5

/* The laws in the value of tronglephu_laws. */
#define TRONGLEPHU_LAW_D 1
#define TRONGLEPHU_LAW_U 2
#define TRONGLEPHU_LAW_C 4

/* An answer: 0 0 0 is done, else the refusal's number, which and place. `value` is the one number that the call gives: 0 where
   it gives none and on every refusal, but the steps done on 11.

     1  count of bytes wrong, field or record cut, bytes left over     9  length of a buffer
     2  version not 1                                                 10  law missing: which 1 D, 2 U, 3 C
     3  n, m or mode out of range: which 1, 2, 3                      11  a row step would store a sum above 983,025
     4  unknown kind or tag, width limit 0: place is its index        12  R does not satisfy the routing equation
     5  count of components not 1..4; fourth product tag              13  over 4,096 steps
     6  value out of range or malformed: place is its first word
     7  no such node, destination or step: place is its index in the list, or the argument (i 0, j 1)
     8  the list does not ascend

   In 6 and 9 `which` is the buffer: 1 A (arcs), 2 R (the new matrix), 3 M (mapping), 4 F, 5 the standing matrix, 6 problem or
   report. In the reader `place` is an offset in the file, and `which` is 0 but for 9. Of several faults the first in the order
   that each call states is given. */
struct tronglephu_answer {
    uint32_t number, which, place, value;
};

/* Reads a problem file. Refuses 9 where arcs has fewer than 1,024 words (which 1), mapping fewer than 2,560 (3), problem fewer
   than 12 (6), in this order and before the file is looked at; then the first fault in the order of the file, in a record 1, 7, 8,
   6. `place` is the offset of the field, tag, limit, byte or value at fault, and of the record's start for 1 and 8 in a record;
   docs/REFUSALS.md says it number by number. Written when done:
   the first n x n x 4 words of arcs, the first n x m x 5 of mapping, and the first 12 of problem: n, m, mode (0 exactly when m
   is 0), and the nine numbers of the language, its unused places dist with limit 0. */
struct tronglephu_answer tronglephu_read(const uint8_t *file, size_t file_count, uint32_t *arcs, size_t arcs_count,
                                         uint32_t *mapping, size_t mapping_count, uint32_t *problem, size_t problem_count);

/* The laws of a language. Refuses 5, 4, then 9 (which 6) where report has fewer than 36 words. The value is D + 2 U + 4 C, each 1
   where the law is held. Written when done: the first 36 words of report, twelve each for D, U and C: the weights s, x and y that
   break the law, or zeros where it is held. */
struct tronglephu_answer tronglephu_laws(const uint16_t *language, size_t language_count, uint32_t *report, size_t report_count);

/* Makes r the fresh matrix: units on the diagonal, no route elsewhere. Refuses 3, 5, 4, 9 (which 2), 10 (D, U). */
struct tronglephu_answer tronglephu_fresh(const uint16_t *language, size_t language_count, uint32_t n, uint32_t *r, size_t r_count);

/* Runs a list of steps on r, in order; the value is the steps done. Refuses 3, 5, 4, 9 (a 1, r 2), 10 (D, U), 6 on a, then r, 13,
   7 at the first number that is no step; and 11 (which 0, place the step) while running: the steps before it stand and are
   counted, its own row is untouched. 11 cannot occur on a matrix that was reached from a fresh one with the same language and a. */
struct tronglephu_answer tronglephu_steps(const uint16_t *language, size_t language_count, uint32_t n, const uint32_t *a,
                                          size_t a_count, uint32_t *r, size_t r_count, const uint32_t *list, size_t list_count);

/* Does r satisfy R = (A join R) best fresh? The value is 1 for yes, 0 for no. Yes does not mean that r holds the best weights.
   Refuses 3, 5, 4, 9 (a 1, r 2), 10 (D, U), 6 on a, then r. Writes nothing. */
struct tronglephu_answer tronglephu_equation(const uint16_t *language, size_t language_count, uint32_t n, const uint32_t *a,
                                             size_t a_count, const uint32_t *r, size_t r_count);

/* Makes f the forwarding table of r and mapping. Refuses 3 (n, m, mode; with m 0, which 3), 5, 4, 9 (a 1, r 2, mapping 3, f 4), 10
   (D, U, and C for hot), 6 on a, r, mapping, 12 where r does not satisfy the equation. */
struct tronglephu_answer tronglephu_forward(const uint16_t *language, size_t language_count, uint32_t n, uint32_t m, uint32_t mode,
                                            const uint32_t *a, size_t a_count, const uint32_t *r, size_t r_count,
                                            const uint32_t *mapping, size_t mapping_count, uint32_t *f, size_t f_count);

/* The next hop from i to j: the lowest k other than i whose arc gives the route its weight; the value is k, or 255 for none.
   Refuses 3, 5, 4, 9 (a 1, r 2), 10 (D, U), 6 on a, then r, 7 for i (place 0), then j (1). Writes nothing. */
struct tronglephu_answer tronglephu_next_hop(const uint16_t *language, size_t language_count, uint32_t n, const uint32_t *a,
                                             size_t a_count, const uint32_t *r, size_t r_count, uint32_t i, uint32_t j);

/* Which matrix lends row i: the value is 2 where every entry of newer is the best weight over paths that visit no node twice, else
   5, the standing one. Row i is the n x 4 words from word i x n x 4 of that matrix. Refuses 3, 5, 4, 9 (a 1, newer 2, standing 5),
   10 (D, U), 6 on a, 7 for i (place 0). Neither matrix's entries are refused. Writes nothing. */
struct tronglephu_answer tronglephu_handover(const uint16_t *language, size_t language_count, uint32_t n, const uint32_t *a,
                                             size_t a_count, const uint32_t *standing, size_t standing_count,
                                             const uint32_t *newer, size_t newer_count, uint32_t i);

#ifdef __cplusplus
}
#endif

#endif
