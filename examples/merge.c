/*
** A price desk whose radio was down has three lists waiting. It merges them, the oldest first, and releases them as
** one, under one number: either all of it shows or nothing. The third list is long, and one list of all three would
** have over 512 words: the first two go out as one release, and the third after them. Then the sender fetches a page.
*/
#include <bandsawpink.h>
#include <inttypes.h>
#include <stdio.h>
#include <string.h>

enum { CARDS = 3, PAGES = 32, CARD = 1, PAGE = 1, PRICES = PAGES * RACK_PAGE_WORDS, WAITING = 3 };

static uint32_t memory[RACK_MEMORY_WORDS(CARDS, PAGES)];
static const size_t words = RACK_MEMORY_WORDS(CARDS, PAGES);
static rack_directory directory;

/* The lists that wait, the oldest first. */
static struct {
    uint32_t words[RACK_LIST_WORDS];
    size_t length;
} waiting[WAITING];

/* Makes a list that waits: one price for the labels from one to another. */
static int make(int which, uint32_t first, uint32_t last, uint32_t price) {
    static const uint32_t twins[PRICES] = { 0 };
    uint32_t working[PRICES] = { 0 }, marks[PAGES] = { 0 }, *list = waiting[which].words;
    for (uint32_t label = first; label <= last; label++) {
        working[label] = price;
        marks[label / RACK_PAGE_WORDS] |= (uint32_t)1 << label % RACK_PAGE_WORDS;
    }
    rack_answer made = rack_make_list(working, PRICES, twins, PRICES, marks, PAGES, list, RACK_LIST_WORDS);
    waiting[which].length = (size_t)made.value;
    return made.number == RACK_ACCEPTED;
}

/* Releases a list through a card, under the card's next number. */
static int release(const uint32_t *list, size_t length) {
    static uint64_t number = 0;
    const uint32_t desk[RACK_DESK_WORDS] = { 7, 7, 7, 7, 7, 7, 7, 7 };
    rack_answer opened = rack_open(memory, words, &directory, CARD, ++number, desk, list, length);
    if (opened.number != RACK_ACCEPTED) return 0;
    uint32_t steps = rack_steps(memory, words, &directory, CARD, UINT32_MAX).made;
    printf("release %" PRIu64 ": %zu words, %" PRIu32 " steps\n", number, length, steps);
    return 1;
}

int main(void) {
    uint32_t merged[RACK_LIST_WORDS] = { 0xF0000000 }, both[RACK_LIST_WORDS], page[RACK_PAGE_WORDS];
    size_t length = 1; /* at first the list of no change */
    if (rack_format(memory, words, CARDS, PAGES, &directory).number != RACK_ACCEPTED) return 1;
    if (!make(0, 34, 35, 250) || !make(1, 35, 36, 175) || !make(2, 64, 543, 99)) return 1;

    for (int at = 0; at < WAITING; at++) {
        const uint32_t *list = waiting[at].words;
        size_t list_words = waiting[at].length;
        rack_answer answer = rack_merge_lists(merged, length, list, list_words, both, RACK_LIST_WORDS);
        if (answer.number == RACK_ACCEPTED) {
            length = (size_t)answer.value;
            memcpy(merged, both, length * sizeof *both);
            printf("list %d of %zu words: merged, %zu words\n", at + 1, list_words, length);
        } else if (answer.number == RACK_LIST_TOO_LONG) {
            /* What is merged so far goes out by itself, and this list is the first of the next release. */
            printf("list %d of %zu words: refused with %" PRIu32 "\n", at + 1, list_words, answer.number);
            if (!release(merged, length)) return 1;
            length = list_words;
            memcpy(merged, list, length * sizeof *list);
        } else return 1; /* a faulty list */
    }
    if (!release(merged, length)) return 1;

    if (rack_fetch(memory, words, &directory, PAGE, page, RACK_PAGE_WORDS).number != RACK_ACCEPTED) return 1;
    for (uint32_t word = 0; word < RACK_PAGE_WORDS; word++) {
        uint32_t label = PAGE * RACK_PAGE_WORDS + word, price = page[word];
        if (price != 0) printf("label %" PRIu32 ": %" PRIu32 ".%02" PRIu32 "\n", label, price / 100, price % 100);
    }
    return 0;
}
