/*
** A rack in the old form, whose numbers have one word. Card 1 has used the last of them: the rack is moved to the form
** of two words, where card 1 takes the next. Before that it can be moved back, after it no more.
*/
#include <bandsawpink.h>
#include <inttypes.h>
#include <stdio.h>

enum { CARDS = 3, PAGES = 4, CARD = 1, PAGE = 1 };

static uint32_t memory[RACK_MEMORY_WORDS(CARDS, PAGES)], old_memory[RACK_OLD_MEMORY_WORDS(CARDS, PAGES)];
static const size_t words = RACK_MEMORY_WORDS(CARDS, PAGES), old_words = RACK_OLD_MEMORY_WORDS(CARDS, PAGES);
static rack_directory directory;

/* In the place of a file: a rack without prices, and the number 4294967295 on card 1 and in its record on card 2. */
static int load(void) {
    const size_t area = RACK_OLD_MEMORY_WORDS(1, PAGES), record = 2 * area + 20 + 18 * CARD;
    old_memory[CARD * area] = old_memory[record] = old_memory[record + 1] = UINT32_MAX;
    return rack_format(memory, words, CARDS, PAGES, &directory).number == RACK_ACCEPTED;
}

static int moved(const char *how, rack_answer answer) {
    if (answer.number == RACK_ACCEPTED) printf("%s: moved\n", how);
    else printf("%s: refused with %" PRIu32 "\n", how, answer.number);
    return answer.number == RACK_ACCEPTED;
}

int main(void) {
    const uint64_t number = UINT64_C(4294967296);
    const uint32_t desk[RACK_DESK_WORDS] = { 7 }, list[] = { 0x10000001, 0x20020001, 250, 0xF0000003 };
    uint32_t page[RACK_PAGE_WORDS];
    if (!load() || !moved("in", rack_move_in(old_memory, old_words, &directory, memory, words))) return 1;
    if (!moved("back", rack_move_back(memory, words, &directory, old_memory, old_words))) return 1;

    rack_answer opened = rack_open(memory, words, &directory, CARD, number, desk, list, 4);
    if (opened.number != RACK_ACCEPTED) return 1;
    uint32_t steps = rack_steps(memory, words, &directory, CARD, UINT32_MAX).made;
    if (rack_fetch(memory, words, &directory, PAGE, page, RACK_PAGE_WORDS).number != RACK_ACCEPTED) return 1;
    printf("release %" PRIu64 ": %" PRIu32 " steps, label 34 at %" PRIu32 " cents\n", number, steps, page[2]);
    moved("back", rack_move_back(memory, words, &directory, old_memory, old_words));
    return 0;
}
