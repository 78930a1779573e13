/*
** A sender: fetches every page of a rack and prints its labels as units and cents. Between its rounds a price desk
** releases changes, a card fails in the middle of a release and is recovered, and the desk sends the release again.
*/
#include <bandsawpink.h>
#include <inttypes.h>
#include <stdio.h>
#include <string.h>

enum { CARDS = 3, PAGES = 4, PRICES = PAGES * RACK_PAGE_WORDS };

static uint32_t memory[RACK_MEMORY_WORDS(CARDS, PAGES)];
static const size_t words = RACK_MEMORY_WORDS(CARDS, PAGES);
static rack_directory directory;

/* What the sender has radioed, and so what the shelf shows. */
static uint32_t shelf[PRICES];

static int refused(const char *call, uint32_t number, uint64_t place) {
    if (number != RACK_ACCEPTED) printf("%s refused: %" PRIu32 " at %" PRIu64 "\n", call, number, place);
    return number != RACK_ACCEPTED;
}

/* A page's prices: those that are not on the shelf yet are radioed. */
static void send(uint32_t page, const uint32_t prices[RACK_PAGE_WORDS]) {
    for (uint32_t word = 0; word < RACK_PAGE_WORDS; word++) {
        uint32_t label = page * RACK_PAGE_WORDS + word;
        if (shelf[label] == prices[word]) continue;
        shelf[label] = prices[word];
        printf("label %" PRIu32 ": %" PRIu32 ".%02" PRIu32 "\n", label, prices[word] / 100, prices[word] % 100);
    }
}

/* One round: each page that was fetched is radioed, a page in motion waits for the next round. */
static void send_all(void) {
    uint32_t prices[PRICES];
    rack_fetch_all_answer fetched = rack_fetch_all(memory, words, &directory, prices, PRICES);
    if (refused("fetch", fetched.number, fetched.value)) return;
    for (uint32_t page = 0; page < PAGES; page++) {
        if (fetched.shown[page]) send(page, prices + page * RACK_PAGE_WORDS);
        else printf("page %" PRIu32 " is in motion and waits\n", page);
    }
}

/* A desk that keeps no marks opens, on a card, a release of the prices that differ from the shelf. */
static int open_release(uint32_t card, uint64_t number, const uint32_t working[PRICES]) {
    uint32_t list[RACK_LIST_WORDS], desk[RACK_DESK_WORDS] = { (uint32_t)number, (uint32_t)(number >> 32) };
    uint32_t marks[PAGES];
    rack_answer marked = rack_mark_changes(working, PRICES, shelf, PRICES, marks, PAGES);
    if (refused("marks", marked.number, marked.value)) return 0;
    rack_answer made = rack_make_list(working, PRICES, shelf, PRICES, marks, PAGES, list, RACK_LIST_WORDS);
    if (refused("list", made.number, made.value)) return 0;
    rack_answer opened = rack_open(memory, words, &directory, card, number, desk, list, (size_t)made.value);
    return !refused("opening", opened.number, opened.value);
}

int main(void) {
    uint32_t working[PRICES];
    rack_answer formatted = rack_format(memory, words, CARDS, PAGES, &directory);
    if (refused("formatting", formatted.number, formatted.value)) return 1;

    memcpy(working, shelf, sizeof working);
    working[34] = 250;
    working[35] = 199;
    working[70] = 1099;
    if (!open_release(1, 1, working)) return 1;
    printf("steps: %" PRIu32 "\n", rack_steps(memory, words, &directory, 1, UINT32_MAX).made);
    send_all();

    /* Ten percent off; the card fails at a step at which the release counts, with committed stores still to make. */
    memcpy(working, shelf, sizeof working);
    working[34] = 225;
    working[70] = 989;
    if (!open_release(1, 2, working)) return 1;
    printf("steps: %" PRIu32 "\n", rack_steps(memory, words, &directory, 1, 14).made);
    send_all();
    rack_answer failed = rack_fail(memory, words, &directory, 1);
    if (refused("failure", failed.number, failed.value)) return 1;
    rack_desk_answer found = rack_recover(memory, words, &directory);
    if (refused("recovery", found.number, found.value)) return 1;
    printf("card 1 recovered: release %" PRIu64 ", desk %" PRIu32 "\n", found.value, found.desk[0]);
    send_all();

    /* The card joins, and the desk, which had no acknowledgement, sends the release again. */
    rack_answer joined = rack_join(memory, words, &directory, 1);
    if (refused("join", joined.number, joined.value)) return 1;
    open_release(1, 2, working);
    rack_desk_answer asked = rack_desk(memory, words, &directory, 1);
    if (refused("desk question", asked.number, asked.value)) return 1;
    printf("last desk of card 1: %" PRIu32 "\n", asked.desk[0]);
    send_all();
    return 0;
}
