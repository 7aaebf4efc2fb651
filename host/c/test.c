/* The library from C, as a host program links it: document 01's whole run, and a few refusals and buffers. */
#include "../include/pouchmeadow.h"

#include <stdio.h>
#include <string.h>

static int passed, failed;

static void check(int line, const char *what, int holds)
{
    if (holds) {
        passed++;
    } else {
        failed++;
        printf("test.c:%d: failed: %s\n", line, what);
    }
}

#define CHECK(holds) check(__LINE__, #holds, (holds))

/* told holds exactly these words; the others are zero */
static int tells(const uint64_t told[8], uint64_t number, uint64_t place, size_t count, const uint64_t *values)
{
    uint64_t expected[8] = {number, place};
    for (size_t i = 0; i < count; i++) {
        expected[2 + i] = values[i];
    }
    return memcmp(told, expected, sizeof expected) == 0;
}

#define TELLS(number, place, ...)                                                                                     \
    tells(told, number, place, sizeof((uint64_t[]){__VA_ARGS__}) / 8, (const uint64_t[]){__VA_ARGS__})
#define REFUSES(number, place) tells(told, number, place, 0, NULL)

static const char query_text[] = "Q(x,y) <- NP(x), Child+(x,y), NN(y).";
static const char sentence[] = "\n( (S (NP (DT a) (NN dog)) (VP (VBD ran) (PP (IN in) (NP (NN rain))))) ) (S x)";

#define TEXT(t) (const uint8_t *)(t), sizeof(t) - 1

int main(void)
{
    uint64_t told[8];
    memset(told, 0xee, sizeof told);

    /* the query text */
    uint8_t names[16], head[8], axes[96];
    uint16_t labels[64];
    memset(names, 0xaa, sizeof names);
    memset(head, 0xaa, sizeof head);
    memset(labels, 0xaa, sizeof labels);
    memset(axes, 0xaa, sizeof axes);
    pouchmeadow_read_query(TEXT("Q(x) <- NP(y."), names, sizeof names, head, labels, axes, told);
    CHECK(REFUSES(POUCHMEADOW_QUERY_TEXT, 12));
    CHECK(names[0] == 0xaa && head[0] == 0xaa && labels[0] == 0xaaaa && axes[0] == 0xaa);
    pouchmeadow_read_query(TEXT(query_text), names, 5, head, labels, axes, told);
    CHECK(REFUSES(POUCHMEADOW_SHORT_BUFFER, 0));
    CHECK(names[0] == 0xaa && head[0] == 0xaa && labels[0] == 0xaaaa && axes[0] == 0xaa);
    pouchmeadow_read_query(TEXT(query_text), names, sizeof names, head, labels, axes, told);
    CHECK(TELLS(0, 0, 6, 2, 2, 2, 1));
    CHECK(memcmp(names, "NP\nNN\n\xaa", 7) == 0);
    CHECK(memcmp(head, "\0\1\xaa", 3) == 0);
    CHECK(memcmp(axes, "\1\0\1\xaa", 4) == 0);
    CHECK(labels[0] == 0 && labels[1] == 0 && labels[2] == 1 && labels[3] == 1 && labels[4] == 0xaaaa);
    size_t name_bytes = told[2], variables = told[3], heads = told[4], label_numbers = 2 * told[5],
           axis_numbers = 3 * told[6];

    /* the sentence */
    uint16_t post[12], label[12];
    memset(post, 0xaa, sizeof post);
    memset(label, 0xaa, sizeof label);
    pouchmeadow_read_sentence(TEXT("(S(NP x))"), names, name_bytes, post, 12, label, 12, told);
    CHECK(REFUSES(POUCHMEADOW_BRACKETS, 2));
    pouchmeadow_read_sentence(TEXT(sentence), names, name_bytes, post, 12, label, 9, told);
    CHECK(REFUSES(POUCHMEADOW_SHORT_BUFFER, 0));
    CHECK(post[0] == 0xaaaa && label[0] == 0xaaaa);
    pouchmeadow_read_sentence(TEXT(sentence), names, name_bytes, post, 12, label, 12, told);
    CHECK(TELLS(0, 0, 10, sizeof sentence - 1 - 6));
    const uint16_t posts[] = {9, 2, 0, 1, 8, 3, 7, 4, 6, 5, 0xaaaa, 0xaaaa};
    CHECK(memcmp(post, posts, sizeof posts) == 0);
    const uint16_t numbers[] = {65535, 0, 65535, 1, 65535, 65535, 65535, 65535, 0, 1, 0xaaaa, 0xaaaa};
    CHECK(memcmp(label, numbers, sizeof numbers) == 0);
    size_t rows = told[2], rest = told[3];
    pouchmeadow_read_sentence((const uint8_t *)sentence + rest, sizeof sentence - 1 - rest, names, name_bytes, post + 11,
                              1, label + 11, 1, told);
    CHECK(TELLS(0, 0, 1, 6));
    CHECK(post[11] == 0 && label[11] == 65535 && post[10] == 0xaaaa);

    /* the checks */
    pouchmeadow_check_table(post, rows, label, rows, told);
    CHECK(REFUSES(0, 0));
    pouchmeadow_check_table(post, rows, label, rows - 1, told);
    CHECK(REFUSES(POUCHMEADOW_COLUMNS, 0));
    pouchmeadow_check_table((const uint16_t[]){1, 2, 0}, 3, label, 3, told);
    CHECK(REFUSES(POUCHMEADOW_POST_NUMBERS, 0));
    pouchmeadow_check_table((const uint16_t[]){3, 1, 2, 0}, 4, label, 4, told);
    CHECK(REFUSES(POUCHMEADOW_THREE_ROWS, 0));
    pouchmeadow_check_query(variables, head, heads, labels, label_numbers, axes, axis_numbers, told);
    CHECK(TELLS(0, 0, 1));
    pouchmeadow_check_query(17, head, heads, labels, label_numbers, axes, axis_numbers, told);
    CHECK(REFUSES(POUCHMEADOW_COUNTS, 0));
    pouchmeadow_check_query(variables, head, heads, labels, label_numbers, axes, axis_numbers - 1, told);
    CHECK(REFUSES(POUCHMEADOW_COUNTS, 0));
    pouchmeadow_check_query(1, head, heads, labels, label_numbers, axes, axis_numbers, told);
    CHECK(REFUSES(POUCHMEADOW_VARIABLES, 0));
    const uint8_t mixed[] = {POUCHMEADOW_CHILD_PLUS, 0, 1, POUCHMEADOW_FOLLOWING, 0, 1};
    pouchmeadow_check_query(variables, head, heads, labels, label_numbers, mixed, 6, told);
    CHECK(REFUSES(POUCHMEADOW_AXES, 0));

    /* pruning, yes or no */
    uint64_t sets[3] = {7, 7, 7};
    pouchmeadow_prune(post, rows, label, rows, variables, head, heads, labels, label_numbers, axes, axis_numbers, sets, 1,
                      told);
    CHECK(REFUSES(POUCHMEADOW_SHORT_BUFFER, 0));
    CHECK(sets[0] == 7 && sets[1] == 7 && sets[2] == 7);
    pouchmeadow_prune(post, rows, label, rows, variables, head, heads, labels, label_numbers, axes, axis_numbers, sets, 3,
                      told);
    CHECK(TELLS(0, 0, 0));
    CHECK(sets[0] == (1u << 1 | 1u << 8) && sets[1] == (1u << 3 | 1u << 9) && sets[2] == 7);
    pouchmeadow_yes_or_no(post, rows, label, rows, variables, head, 0, labels, label_numbers, axes, axis_numbers, sets, 3,
                          told);
    CHECK(TELLS(0, 0, 1));
    CHECK(sets[0] == 0 && sets[1] == 0 && sets[2] == 7);

    /* the first answer after a tuple */
    uint16_t found[8];
    memset(found, 0xaa, sizeof found);
    const uint16_t first[] = {1, 3}, last[] = {8, 9}, beyond[] = {1, 10};
    pouchmeadow_find_after(post, rows, label, rows, variables, head, heads, labels, label_numbers, axes, axis_numbers,
                           first, 2, sets, 3, found, 3, told);
    CHECK(TELLS(0, 0, 1));
    CHECK(found[0] == 8 && found[1] == 9 && found[2] == 0xaaaa);
    found[0] = 77;
    pouchmeadow_find_after(post, rows, label, rows, variables, head, heads, labels, label_numbers, axes, axis_numbers,
                           last, 2, sets, 3, found, 3, told);
    CHECK(TELLS(0, 0, 0));
    CHECK(found[0] == 77);
    pouchmeadow_find_after(post, rows, label, rows, variables, head, heads, labels, label_numbers, axes, axis_numbers,
                           beyond, 2, sets, 3, found, 3, told);
    CHECK(REFUSES(POUCHMEADOW_TUPLE, 0));
    pouchmeadow_find_after(post, rows, label, rows, variables, head, 0, labels, label_numbers, axes, axis_numbers, first,
                           0, sets, 3, found, 3, told);
    CHECK(REFUSES(POUCHMEADOW_EMPTY_HEAD, 0));

    /* listing: finished, full, spent */
    memset(found, 0xaa, sizeof found);
    pouchmeadow_list_answers(post, rows, label, rows, variables, head, heads, labels, label_numbers, axes, axis_numbers,
                             1000000, sets, 3, found, 8, told);
    CHECK(TELLS(0, 0, POUCHMEADOW_FINISHED, 2, 6));
    const uint16_t all[] = {1, 3, 8, 9, 0xaaaa, 0xaaaa, 0xaaaa, 0xaaaa};
    CHECK(memcmp(found, all, sizeof all) == 0);
    pouchmeadow_list_answers(post, rows, label, rows, variables, head, heads, labels, label_numbers, axes, axis_numbers,
                             3, sets, 3, found, 4, told);
    CHECK(TELLS(0, 0, POUCHMEADOW_FULL, 2, 3));
    pouchmeadow_list_answers(post, rows, label, rows, variables, head, heads, labels, label_numbers, axes, axis_numbers,
                             2, sets, 3, found, 8, told);
    CHECK(TELLS(0, 0, POUCHMEADOW_SPENT, 1, 2));
    CHECK(sets[0] == 0 && sets[1] == 0 && sets[2] == 7);

    printf("test.c: %d passed, %d failed\n", passed, failed);
    return failed != 0;
}
