/* Batches added up to the last digit: from three lists, then with a recipe among them that there is not, then from a stored
 * bank. C99 and C++. */
#include <stdio.h>

#include "../../include/khuyapesh.h"

enum { BATCHES = 5 };

/* The sheets of a week: batch i has its raw volume, its factor and its recipe at place i. Recipe 3 got a new drum. */
static const uint32_t raws[BATCHES] = {3204, 503, 0, 501, 24091};
static const uint32_t factors[BATCHES] = {9983, 10012, 10012, 10150, 9940};
static uint32_t recipes[BATCHES] = {1, 3, 3, 3, 5};

/* A stored bank: version, length; number, recipe, factor, raw, preset of its one batch. */
static const uint8_t bank[] = {1, 0, 15, 0, 2, 3, 0x27, 0xA6, 0, 0, 0x01, 0xF4, 0, 0x01, 0xF4};

static uint64_t sums[KHUYAPESH_RECIPES];
static uint32_t counts[KHUYAPESH_RECIPES];

/* Prints each recipe that occurs. A sum is a whole number of ten-thousandths, and no floating point comes between it and its
 * text. */
static void show(void)
{
    uint8_t units[KHUYAPESH_FRAME_ROOM];
    int place;

    for (place = 0; place < KHUYAPESH_RECIPES; place++) {
        uint32_t length = khuyapesh_units(sums[place], units, sizeof units);

        if (counts[place] > 0 && !khuyapesh_is_refusal(length))
            printf("recipe %d: batches %lu, units %.*s\n", place + 1, (unsigned long)counts[place], (int)length,
                   (const char *)units);
    }
}

static uint32_t add_up(void)
{
    return khuyapesh_totals(raws, BATCHES, factors, BATCHES, recipes, BATCHES, sums, KHUYAPESH_RECIPES, counts,
                            KHUYAPESH_RECIPES);
}

int main(void)
{
    uint8_t text[KHUYAPESH_TOTALS_ROOM];
    uint32_t answer;
    size_t written;

    if (add_up() != KHUYAPESH_DONE)
        return 1;
    show();

    /* one bad batch, and none is added up: the sums and counts of before give way to 0 */
    recipes[4] = 9;
    answer = add_up();
    if (khuyapesh_class(answer) != KHUYAPESH_TOTALS)
        return 1;
    printf("a recipe 9 among them: W%u\n", (unsigned)khuyapesh_number(answer));
    show();

    /* the same of a bank, and the lines that the program totals writes for it */
    if (khuyapesh_bank_totals(bank, sizeof bank, sums, KHUYAPESH_RECIPES, counts, KHUYAPESH_RECIPES) != KHUYAPESH_DONE)
        return 1;
    printf("the bank:\n");
    show();
    if (khuyapesh_totals_text(bank, sizeof bank, text, sizeof text, &written) != KHUYAPESH_DONE)
        return 1;
    printf("%.*s", (int)written, (const char *)text);
    return 0;
}
