/*
 * Worked block 2, c[i] = a[i] + b[i] for i from 0 to 3: made into a list, and both run on the same cells.
 *
 *     cc -I include -o worked_block examples/c/worked_block.c target/staticlib/libnephinor.a && ./worked_block
 */
#include "nephinor.h"

#include <inttypes.h>
#include <stdio.h>
#include <string.h>

enum { CELLS = 12 };

static const uint8_t block[] = {
    0x01, 0x00, 0x39,                                           /* version 1, 57 bytes in all */
    0, 0, 3, 4,                                                 /* no variables, none live out, 3 arrays, 4 statements */
    0, 4, 0, 4, 0, 4,                                           /* each array has 4 cells */
    0x0A, NEPHINOR_ADD, 2, 2, 0, 2, 0, 0, 2, 1, 0,              /* c[0] = a[0] + b[0] */
    0x0A, NEPHINOR_ADD, 2, 2, 1, 2, 0, 1, 2, 1, 1,              /* c[1] = a[1] + b[1] */
    0x0A, NEPHINOR_ADD, 2, 2, 2, 2, 0, 2, 2, 1, 2,              /* c[2] = a[2] + b[2] */
    0x0A, NEPHINOR_ADD, 2, 2, 3, 2, 0, 3, 2, 1, 3,              /* c[3] = a[3] + b[3] */
};

/* Array a, array b, and array c, which both runs fill. The last sum is above 2^32. */
static const uint32_t start[CELLS] = {1, 2, 3, 4294967295u, 10, 20, 30, 2, 0, 0, 0, 0};

/* Says why a call was refused. */
static int refused(const char *call, uint64_t answer)
{
    fprintf(stderr, "%s: %u, %s\n", call, nephinor_status_of(answer), nephinor_sentence(nephinor_status_of(answer)));
    return 1;
}

/* One instruction a line: the letter of its code, then its fields. A record begins with the number of bytes behind that one. */
static void print_list(const uint8_t *list, size_t length)
{
    for (size_t at = 4; at < length; at += list[at] + 1u) {
        printf("    %c", "SLCGOWDX"[list[at + 1] & 7]);
        for (size_t field = 2; field <= list[at]; field++)
            printf(" %u", list[at + field]);
        printf("\n");
    }
}

static void print_run(const char *what, uint64_t answer, const uint32_t *cells)
{
    printf("%s paid %2u and left c =", what, nephinor_price_of(answer));
    for (size_t cell = 8; cell < CELLS; cell++)
        printf(" %" PRIu32, cells[cell]);
    printf("\n");
}

int main(void)
{
    uint8_t list[NEPHINOR_LIST_ROOM];
    uint64_t made = nephinor_make_list(block, sizeof block, list, sizeof list);
    if (nephinor_status_of(made) != NEPHINOR_DONE)
        return refused("nephinor_make_list", made);
    size_t length = nephinor_size_of(made);
    printf("the block has %zu bytes and costs %u\n", sizeof block, nephinor_price_of(made));
    printf("its list has %zu bytes and costs %u:\n", length, nephinor_list_price_of(made));
    print_list(list, length);

    /* No variables are declared, so none are lent; a pointer has to be given all the same. */
    uint32_t none[1] = {0};
    uint32_t by_block[CELLS], by_list[CELLS];
    memcpy(by_block, start, sizeof start);
    memcpy(by_list, start, sizeof start);

    uint64_t ran = nephinor_run_block(block, sizeof block, none, 0, by_block, CELLS);
    if (nephinor_status_of(ran) != NEPHINOR_DONE)
        return refused("nephinor_run_block", ran);
    print_run("the block", ran, by_block);

    ran = nephinor_run_list(block, sizeof block, list, length, none, 0, by_list, CELLS);
    if (nephinor_status_of(ran) != NEPHINOR_DONE)
        return refused("nephinor_run_list", ran);
    print_run("the list ", ran, by_list);

    int same = memcmp(by_block, by_list, sizeof by_block) == 0;
    printf("every cell %s\n", same ? "is the same" : "IS NOT THE SAME");
    return same ? 0 : 1;
}
