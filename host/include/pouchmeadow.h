/* Pouchmeadow: tree search for dictionary editors. The proved library, for C.
 *
 * Link with target/staticlib/libexport.a, which `bash host/build.sh export` writes (x86-64 Linux).
 *
 * A table is two columns of n rows, 1 to 1,024: `post` holds the post-order number of each row, `label` its label. The row
 * number is the pre-order number, from 0.
 *
 * A query is a number of variables, 1 to 16, and three lists:
 *   head    variables, at most 8, all different;
 *   labels  two numbers for each label condition, at most 32 conditions: variable, label;
 *   axes    three bytes for each axis condition, at most 32 conditions: axis code, first variable, second variable.
 * The lengths count numbers, not conditions: labels_length is twice the label conditions, axes_length three times the axis
 * conditions.
 *
 * `sets` is a buffer of 64-bit words that needs variables * ((n + 63) / 64) words. Row r of variable x is bit r % 64 of word
 * x * ((n + 63) / 64) + r / 64. Words beyond are never written.
 *
 * Every function takes any numbers and any lengths, and writes its answer to told[0] .. told[7]:
 *   told[0]   0, or the number of the refusal (below). Where several apply it is the lowest;
 *   told[1]   the place in the text, for the refusals 10, 11 and 12, otherwise 0;
 *   told[2..] the values that the function's comment names; zeros after them, and on a refusal.
 * On a refusal no other buffer differs from before.
 *
 * Two things are the caller's: a pointer is valid for its length and not null, also where the length is 0; and what is
 * written overlaps nothing else that is passed. */
#ifndef POUCHMEADOW_H
#define POUCHMEADOW_H

#include <stddef.h>
#include <stdint.h>

#ifdef __cplusplus
extern "C" {
#endif

/* Axis codes. */
enum {
    POUCHMEADOW_CHILD = 0,
    POUCHMEADOW_CHILD_PLUS = 1,
    POUCHMEADOW_CHILD_STAR = 2,
    POUCHMEADOW_NEXT_SIBLING = 3,
    POUCHMEADOW_NEXT_SIBLING_PLUS = 4,
    POUCHMEADOW_NEXT_SIBLING_STAR = 5,
    POUCHMEADOW_FOLLOWING = 6
};

/* Numbers of refusal. */
enum {
    POUCHMEADOW_COLUMNS = 1,       /* columns of a table differ in length, or n is 0 or above 1,024 */
    POUCHMEADOW_POST_NUMBERS = 2,  /* post numbers are not 0 to n - 1 once each, or row 0 lacks n - 1 */
    POUCHMEADOW_THREE_ROWS = 3,    /* three rows a < b < c have post(c) < post(a) < post(b) */
    POUCHMEADOW_COUNTS = 4,        /* a count of variables, conditions, names or head is outside its limits */
    POUCHMEADOW_VARIABLES = 5,     /* an axis code above 6, a variable number too large, or a head variable twice */
    POUCHMEADOW_AXES = 6,          /* axes in no one set */
    POUCHMEADOW_EMPTY_HEAD = 7,    /* empty head, in a listing or a search after a tuple */
    POUCHMEADOW_TUPLE = 8,         /* the tuple is not as long as the head, or holds a row that the table lacks */
    POUCHMEADOW_SHORT_BUFFER = 9,  /* a buffer is too short */
    POUCHMEADOW_QUERY_TEXT = 10,   /* not a query text from the place on */
    POUCHMEADOW_BRACKETS = 11,     /* not a bracketed sentence from the place on */
    POUCHMEADOW_TOO_LARGE = 12,    /* a 65th nested tree or the 1,025th row opens at the place */
    POUCHMEADOW_HEAD_VARIABLE = 13 /* a head variable of a query text has no condition */
};

/* How a listing ends. */
enum {
    POUCHMEADOW_FINISHED = 0, /* the list is all of the answers */
    POUCHMEADOW_FULL = 1,     /* there is no room for more */
    POUCHMEADOW_SPENT = 2     /* the allowance is used up */
};

/* Is the table a tree? Not refused exactly if the post numbers are 0 to n - 1 once each with n - 1 at row 0, and no three
 * rows a < b < c have post(c) < post(a) < post(b). Refusals 1, 2, 3. No values. */
void pouchmeadow_check_table(const uint16_t *post, size_t post_length, const uint16_t *label, size_t label_length,
                             uint64_t told[8]);

/* Is the query accepted? Not refused exactly if it is within the limits above and all its axes are in one set. Value: the
 * set, 1 (Child+, Child*; also where there is no axis), 2 (Following) or 3 (Child and the siblings). Refusals 4, 5, 6. A
 * list that holds no whole number of conditions is refused 4. */
void pouchmeadow_check_query(size_t variables, const uint8_t *head, size_t head_length, const uint16_t *labels,
                             size_t labels_length, const uint8_t *axes, size_t axes_length, uint64_t told[8]);

/* Prunes: each variable's set starts with the rows that carry all its labels, and rows that lack a partner for some axis
 * condition are struck until none can be. The sets that are left stand in `sets`, bits for rows n and up are zero. Value:
 * the strikings, which is the sum of the set sizes at the start minus the sum at the end. Refusals 1 to 6, 9. */
void pouchmeadow_prune(const uint16_t *post, size_t post_length, const uint16_t *label, size_t label_length,
                       size_t variables, const uint8_t *head, size_t head_length, const uint16_t *labels,
                       size_t labels_length, const uint8_t *axes, size_t axes_length, uint64_t *sets,
                       size_t sets_length, uint64_t told[8]);

/* Does some choice of a row for each variable meet all conditions? The head may be empty. Zeros are left in the sets' words.
 * Value: 1 for yes, 0 for no. Refusals 1 to 6, 9. */
void pouchmeadow_yes_or_no(const uint16_t *post, size_t post_length, const uint16_t *label, size_t label_length,
                           size_t variables, const uint8_t *head, size_t head_length, const uint16_t *labels,
                           size_t labels_length, const uint8_t *axes, size_t axes_length, uint64_t *sets,
                           size_t sets_length, uint64_t told[8]);

/* The first answer after a tuple of rows, in the order of the query's set; the tuple need not be an answer. It goes to the
 * front of `found`, which needs a place for each head variable; if there is none, `found` stays as it was. Zeros are left in
 * the sets' words. Value: 1 for found, 0 for nothing. Refusals 1 to 9. */
void pouchmeadow_find_after(const uint16_t *post, size_t post_length, const uint16_t *label, size_t label_length,
                            size_t variables, const uint8_t *head, size_t head_length, const uint16_t *labels,
                            size_t labels_length, const uint8_t *axes, size_t axes_length, const uint16_t *tuple,
                            size_t tuple_length, uint64_t *sets, size_t sets_length, uint16_t *found,
                            size_t found_length, uint64_t told[8]);

/* Lists answers from the first on, rising in the order of the query's set, tuples one after another at the front of `found`:
 * as many as there are, as it has room for, and as the allowance of strikings pays for. What is behind them stays as it was.
 * Zeros are left in the sets' words. Values: the ending (finished: these are all answers), the number of tuples, the
 * strikings used. Refusals 1 to 7, and 9 for `sets` only. */
void pouchmeadow_list_answers(const uint16_t *post, size_t post_length, const uint16_t *label, size_t label_length,
                              size_t variables, const uint8_t *head, size_t head_length, const uint16_t *labels,
                              size_t labels_length, const uint8_t *axes, size_t axes_length, uint64_t allowance,
                              uint64_t *sets, size_t sets_length, uint16_t *found, size_t found_length,
                              uint64_t told[8]);

/* Reads a query text such as `Q(x,y) <- NP(x), Child+(x,y), NN(y).` The query goes to the fronts of head, labels and axes, in
 * the layout in which the other functions take it; its label names to the front of `names`, each closed by a line feed, and
 * a label condition's number is its name's place there, from 0. What is behind stays as it was. Values: the bytes of the
 * names, then the numbers of variables, of head variables, of label conditions and of axis conditions. Refusals 10, 4, 5,
 * 13, 9, tried in this order. The place of 10 is the first byte that continues no legal text, or the length where the text
 * ends early. */
void pouchmeadow_read_query(const uint8_t *text, size_t text_length, uint8_t *names, size_t names_length,
                            uint8_t head[8], uint16_t labels[64], uint8_t axes[96], uint64_t told[8]);

/* Reads the bracketed sentence at the front of a text. Its rows go to the fronts of the two columns; what is behind them
 * stays as it was. A row's label number is the place of its label's name in the list `names`, and 65535 where it is not
 * there. Values: the number of rows, and where the sentence ends: the next one starts at text + told[3]. Refusals 4 (33 names
 * or more), 11 and 12 (the smaller place), then 9 (either column is shorter than the rows). */
void pouchmeadow_read_sentence(const uint8_t *text, size_t text_length, const uint8_t *names, size_t names_length,
                               uint16_t *post, size_t post_length, uint16_t *label, size_t label_length,
                               uint64_t told[8]);

#ifdef __cplusplus
}
#endif

#endif
