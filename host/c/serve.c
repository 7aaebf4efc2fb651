/* For machines that are not x86-64: runs under an emulator there and calls the library for the Rust tests, which cannot link
 * it themselves. A request is the entry's number and its arguments, each number as eight bytes and each slice as its bytes
 * behind their count; the answer is told, then each slice that was lent for writing. */
#include "../include/pouchmeadow.h"

#include <stdio.h>
#include <stdlib.h>

struct slice {
    uint64_t bytes;
    void *data;
};

static void take(void *to, size_t bytes)
{
    if (fread(to, 1, bytes, stdin) != bytes) {
        exit(0);
    }
}

static uint64_t take_number(void)
{
    uint64_t number;
    take(&number, sizeof number);
    return number;
}

static struct slice take_slice(void)
{
    struct slice s;
    s.bytes = take_number();
    s.data = malloc(s.bytes + 1);
    if (!s.data) {
        exit(1);
    }
    take(s.data, s.bytes);
    return s;
}

static void give(struct slice s)
{
    fwrite(s.data, 1, s.bytes, stdout);
}

#define OF(s, size) (s).data, (s).bytes / (size)
#define QUERY variables, OF(head, 1), OF(labels, 2), OF(axes, 1)

int main(void)
{
    for (;;) {
        uint64_t told[8];
        struct slice told_slice = {sizeof told, told};
        struct slice post = {0, 0}, label = {0, 0}, head = {0, 0}, labels = {0, 0}, axes = {0, 0}, tuple = {0, 0},
                     sets = {0, 0}, found = {0, 0}, text = {0, 0}, names = {0, 0};
        uint64_t variables = 0, allowance = 0, entry = take_number();
        take(told, sizeof told);
        if (entry == 0 || (entry >= 2 && entry <= 5)) {
            post = take_slice();
            label = take_slice();
        }
        if (entry >= 1 && entry <= 5) {
            variables = take_number();
            head = take_slice();
            labels = take_slice();
            axes = take_slice();
        }
        switch (entry) {
        case 0:
            pouchmeadow_check_table(OF(post, 2), OF(label, 2), told);
            give(told_slice);
            break;
        case 1:
            pouchmeadow_check_query(QUERY, told);
            give(told_slice);
            break;
        case 2:
        case 3:
            sets = take_slice();
            (entry == 2 ? pouchmeadow_prune : pouchmeadow_yes_or_no)(OF(post, 2), OF(label, 2), QUERY, OF(sets, 8), told);
            give(told_slice);
            give(sets);
            break;
        case 4:
            tuple = take_slice();
            sets = take_slice();
            found = take_slice();
            pouchmeadow_find_after(OF(post, 2), OF(label, 2), QUERY, OF(tuple, 2), OF(sets, 8), OF(found, 2), told);
            give(told_slice);
            give(sets);
            give(found);
            break;
        case 5:
            allowance = take_number();
            sets = take_slice();
            found = take_slice();
            pouchmeadow_list_answers(OF(post, 2), OF(label, 2), QUERY, allowance, OF(sets, 8), OF(found, 2), told);
            give(told_slice);
            give(sets);
            give(found);
            break;
        case 6:
            text = take_slice();
            names = take_slice();
            head = take_slice();
            labels = take_slice();
            axes = take_slice();
            pouchmeadow_read_query(OF(text, 1), OF(names, 1), head.data, labels.data, axes.data, told);
            give(told_slice);
            give(names);
            give(head);
            give(labels);
            give(axes);
            break;
        case 7:
            text = take_slice();
            names = take_slice();
            post = take_slice();
            label = take_slice();
            pouchmeadow_read_sentence(OF(text, 1), OF(names, 1), OF(post, 2), OF(label, 2), told);
            give(told_slice);
            give(post);
            give(label);
            break;
        default:
            return 1;
        }
        fflush(stdout);
        free(post.data);
        free(label.data);
        free(head.data);
        free(labels.data);
        free(axes.data);
        free(tuple.data);
        free(sets.data);
        free(found.data);
        free(text.data);
        free(names.data);
    }
}
