#include <bandsawpink.h>
#include <stdio.h>

enum { CARDS = 3, PAGES = 4, CARD = 1, PAGE = 1, PRICES = PAGES * RACK_PAGE_WORDS };
static uint32_t memory[RACK_MEMORY_WORDS(CARDS, PAGES)];
static const size_t words = RACK_MEMORY_WORDS(CARDS, PAGES);

int main(void) {
    uint32_t twins[PRICES] = { 0 }, working[PRICES] = { 0 }, marks[PAGES] = { 0 };
    uint32_t desk[RACK_DESK_WORDS] = { 7 }, list[RACK_LIST_WORDS], page[RACK_PAGE_WORDS];
    rack_directory directory;
    if (rack_format(memory, words, CARDS, PAGES, &directory).number != RACK_ACCEPTED) return 1;

    working[PAGE * RACK_PAGE_WORDS + 2] = 250; /* two new prices, in cents */
    working[PAGE * RACK_PAGE_WORDS + 3] = 199;
    marks[PAGE] = 1u << 2 | 1u << 3; /* words 2 and 3 are to be released */
    rack_answer made = rack_make_list(working, PRICES, twins, PRICES, marks, PAGES, list, RACK_LIST_WORDS);
    rack_answer opened = rack_open(memory, words, &directory, CARD, 1, desk, list, made.value);
    if (opened.number != RACK_ACCEPTED) return (int)opened.number;
    rack_steps(memory, words, &directory, CARD, 13);

    rack_fail(memory, words, &directory, CARD); /* between two stores, once the release counts */
    rack_desk_answer found = rack_recover(memory, words, &directory);
    printf("card %d: release %llu of desk %u\n", CARD, (unsigned long long)found.value, found.desk[0]);
    rack_answer shown = rack_fetch(memory, words, &directory, PAGE, page, RACK_PAGE_WORDS);
    if (shown.number != RACK_ACCEPTED) return (int)shown.number;
    for (uint32_t word = 0; word < RACK_PAGE_WORDS; word++)
        if (page[word] != 0)
            printf("label %u: %u.%02u\n", PAGE * RACK_PAGE_WORDS + word, page[word] / 100, page[word] % 100);
    return 0;
}
