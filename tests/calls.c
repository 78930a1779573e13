/*
** The exported functions called from C: each refusal of documents 01 and 02 with its number and place, that a refusal
** keeps memory, directory, buffer and marks, and where lost homes go. Ends with status 0 if all is as expected.
*/
#include <bandsawpink.h>
#include <stdio.h>
#include <string.h>

enum { CARDS = 3, PAGES = 4, PRICES = PAGES * RACK_PAGE_WORDS, WORDS = RACK_MEMORY_WORDS(CARDS, PAGES) };

/*
** An area's length, and where the card's stamp, the mark of an open release, its steps and number, the records of cards
** and the list stand in it.
*/
enum {
    AREA = RACK_MEMORY_WORDS(1, PAGES),
    STAMP = 0,
    OPEN = STAMP + 2 + RACK_DESK_WORDS,
    STEPS = OPEN + 1,
    NUMBER = STEPS + 1,
    RECORDS = NUMBER + 2 + RACK_DESK_WORDS,
    RECORD_WORDS = 4 + 2 * RACK_DESK_WORDS,
    LIST = RACK_MEMORY_WORDS(1, 0) - RACK_LIST_WORDS
};

/* The same in the old form. */
enum {
    OLD_WORDS = RACK_OLD_MEMORY_WORDS(CARDS, PAGES),
    OLD_AREA = RACK_OLD_MEMORY_WORDS(1, PAGES),
    OLD_OPEN = STAMP + 1 + RACK_DESK_WORDS,
    OLD_RECORDS = OLD_OPEN + 3 + RACK_DESK_WORDS,
    OLD_RECORD_WORDS = 2 + 2 * RACK_DESK_WORDS,
    OLD_PAGES = RACK_OLD_MEMORY_WORDS(1, 0),
    OLD_LIST = OLD_PAGES - RACK_LIST_WORDS
};

static uint32_t memory[WORDS + 1], memory_before[WORDS + 1], large[RACK_MEMORY_WORDS(CARDS, RACK_MAX_PAGES)];
static uint32_t old_memory[OLD_WORDS + 1], old_before[OLD_WORDS + 1];
static uint32_t *const record = memory + 2 * AREA + RECORDS + RECORD_WORDS; /* that of card 1 on card 2, its backup */
static rack_directory directory, directory_before;
static const uint32_t desk[RACK_DESK_WORDS] = { 1, 2, 3, 4, 5, 6, 7, 8 };
static const uint32_t list[] = { 0x10000001, 0x20020002, 250, 199, 0xF0000004 };
static int failed;

#define EXPECT(fact) \
    do { \
        if (!(fact)) { \
            printf("%s:%d: not so: %s\n", __FILE__, __LINE__, #fact); \
            failed = 1; \
        } \
    } while (0)

/* A call's number and place, and that it kept both memories and the directory. */
#define REFUSED(call, expected_number, expected_place) \
    do { \
        memcpy(memory_before, memory, sizeof memory); \
        memcpy(old_before, old_memory, sizeof old_memory); \
        directory_before = directory; \
        rack_answer answer = (call); \
        EXPECT(answer.number == (expected_number) && answer.value == (expected_place)); \
        EXPECT(memcmp(memory, memory_before, sizeof memory) == 0); \
        EXPECT(memcmp(old_memory, old_before, sizeof old_memory) == 0); \
        EXPECT(memcmp(&directory, &directory_before, sizeof directory) == 0); \
    } while (0)

/* That a call was accepted, gave 0 and kept memory and directory. */
#define KEPT(call) REFUSED(call, RACK_ACCEPTED, 0)

#define ACCEPTED(call) EXPECT((call).number == RACK_ACCEPTED)

/* Two answers with desks, as answers whose desks are checked. */
static rack_answer checked(rack_desk_answer found) {
    uint32_t zeros[RACK_DESK_WORDS] = { 0 };
    if (found.number != RACK_ACCEPTED) EXPECT(memcmp(found.desk, zeros, sizeof zeros) == 0);
    rack_answer answer = { found.number, found.value };
    return answer;
}

static void format(void) {
    ACCEPTED(rack_format(memory, WORDS, CARDS, PAGES, &directory));
}

static void formatting(void) {
    memset(&directory, 0xA5, sizeof directory);
    memset(memory, 0xA5, sizeof memory);
    memcpy(memory_before, memory, sizeof memory);
    rack_answer answer = rack_format(memory, WORDS - 1, CARDS, PAGES, &directory);
    EXPECT(answer.number == RACK_LIMITS && answer.value == 0);
    EXPECT(memcmp(memory, memory_before, sizeof memory) == 0);
    EXPECT(directory.cards == 0 && directory.pages == 0 && directory.awaited == RACK_RUNNING);
    EXPECT(directory.live[0] == 0);
    EXPECT(directory.primary[RACK_MAX_PAGES - 1] == 0 && directory.secondary[RACK_MAX_PAGES - 1] == 0);
    EXPECT(rack_step(memory, WORDS, &directory, 0).number == RACK_LIMITS);
    EXPECT(rack_format(memory, WORDS + 1, CARDS, PAGES, &directory).number == RACK_LIMITS);
    EXPECT(rack_format(NULL, 0, 0, 0, &directory).number == RACK_LIMITS);
    format();
    EXPECT(memory[0] == 0 && memory[WORDS - 1] == 0 && memory[WORDS] == 0xA5A5A5A5);
    EXPECT(directory.cards == CARDS && directory.pages == PAGES && directory.awaited == RACK_RUNNING);
    EXPECT(directory.live[2] == 1 && directory.live[3] == 0);
    EXPECT(directory.primary[2] == 2 && directory.secondary[2] == 0 && directory.primary[4] == 0);
    EXPECT(WORDS == 2850);
}

static void desk_calls(void) {
    format();
    REFUSED(rack_open(memory, WORDS - 1, &directory, 1, 1, desk, list, 5), RACK_LIMITS, 0);
    REFUSED(rack_open(memory, WORDS, &directory, 3, 1, desk, list, 5), RACK_NO_CARD, 0);
    REFUSED(rack_open(memory, WORDS, &directory, 1, 0, desk, list, 5), RACK_NUMBER_USED, 0);
    REFUSED(rack_open(memory, WORDS, &directory, 1, 2, desk, list, 5), RACK_NUMBER_AHEAD, 0);
    REFUSED(rack_open(memory, WORDS, &directory, 1, 1, desk, list, 4), RACK_FAULTY_LIST, 4);
    REFUSED(rack_open(memory, WORDS, &directory, 1, 1, desk, NULL, 0), RACK_FAULTY_LIST, 0);
    REFUSED(rack_step(memory, WORDS, &directory, 1), RACK_NONE_OPEN, 0);
    memory[AREA + OPEN] = 2;
    REFUSED(rack_step(memory, WORDS, &directory, 1), RACK_UNFIT, 0);
    memory[AREA + OPEN] = 0;
    ACCEPTED(rack_open(memory, WORDS, &directory, 1, 1, desk, list, 5));
    REFUSED(rack_open(memory, WORDS, &directory, 1, 1, desk, list, 5), RACK_RELEASE_OPEN, 0);
    REFUSED(rack_open(memory, WORDS, &directory, 2, 1, desk, list, 5), RACK_WORD_IN_USE, 1);
    for (int step = 0; step < 19; step++) ACCEPTED(rack_step(memory, WORDS, &directory, 1));
    REFUSED(rack_step(memory, WORDS, &directory, 1), RACK_NONE_OPEN, 0);
    REFUSED(rack_open(memory, WORDS, &directory, 1, 1, desk, list, 5), RACK_NUMBER_USED, 1);
    rack_desk_answer asked = rack_desk(memory, WORDS, &directory, 1);
    EXPECT(asked.number == RACK_ACCEPTED && memcmp(asked.desk, desk, sizeof desk) == 0);
    REFUSED(checked(rack_desk(memory, WORDS, &directory, 3)), RACK_NO_CARD, 0);
}

/* The header's rules for a list, in its order, each broken once: the words, their number, the place. */
static const struct {
    uint32_t words[6], length, place;
} faulty[] = {
    { { 0x10000001, 0x20020001, 5, 0x30000000 }, 4, 3 },             /* no kind */
    { { 0x10000040, 0x20020001, 5, 0xF0000003 }, 4, 0 },             /* a page past every rack's */
    { { 0x10000001, 0x20020001, 5, 0x10000001 }, 4, 3 },             /* a page twice */
    { { 0x10000001, 0xF0000001 }, 2, 1 },                            /* a page without a run */
    { { 0x20020001, 5, 0xF0000002 }, 3, 0 },                         /* a run before the first page */
    { { 0x10000001, 0x20020000, 0xF0000002 }, 3, 1 },                /* a run of no price */
    { { 0x10000001, 0x201F0002, 5, 6, 0xF0000004 }, 5, 1 },          /* a run past the page's end */
    { { 0x10000001, 0x20020001, 5, 0x20030001, 6, 0xF0000005 }, 6, 3 }, /* runs that touch */
    { { 0x10000001, 0x20020001, 5, 0xF0000004 }, 4, 3 },             /* another index */
    { { 0x10000001, 0x20020001, 5, 0xF0000003, 0 }, 5, 4 },          /* a word after the end */
    { { 0x10000001, 0x20020002, 5 }, 3, 3 },                         /* a run cut short */
    { { 0x10000001, 0x20020001, 5 }, 3, 3 },                         /* no end word */
};
enum { FAULTY = sizeof faulty / sizeof *faulty };

static void list_rules(void) {
    const uint32_t page_4[] = { 0x10000004, 0x20020001, 5, 0xF0000003 };
    uint32_t longest[RACK_LIST_WORDS + 1] = { 0 };
    format();
    for (int at = 0; at < FAULTY; at++)
        REFUSED(rack_open(memory, WORDS, &directory, 1, 1, desk, faulty[at].words, faulty[at].length), RACK_FAULTY_LIST,
                faulty[at].place);
    REFUSED(rack_open(memory, WORDS, &directory, 1, 1, desk, page_4, 4), RACK_FAULTY_LIST, 0); /* past the rack's */
    const size_t words = RACK_MEMORY_WORDS(CARDS, RACK_MAX_PAGES);
    ACCEPTED(rack_format(large, words, CARDS, RACK_MAX_PAGES, &directory));
    size_t length = 0;
    for (uint32_t page = 0; length + 34 <= RACK_LIST_WORDS; page++, length += 34) {
        longest[length] = 0x10000000 | page;
        longest[length + 1] = 0x20000020;
    }
    longest[length] = 0x1000003F; /* two words are left: a page and a run, whose price is the word too many */
    longest[length + 1] = 0x20000001;
    EXPECT(length + 2 == RACK_LIST_WORDS);
    rack_answer answer = rack_open(large, words, &directory, 1, 1, desk, longest, RACK_LIST_WORDS + 1);
    EXPECT(answer.number == RACK_FAULTY_LIST && answer.value == RACK_LIST_WORDS);
}

/* The header's list of what does not make a rack, each clause once. */
static void unfit_racks(void) {
    format();
    directory.live[1] = directory.live[2] = 0;
    REFUSED(checked(rack_desk(memory, WORDS, &directory, 0)), RACK_UNFIT, 0);
    const uint32_t homes[] = { 0, 3, 1 }; /* equal to the primary, no card, dead */
    for (int at = 0; at < 3; at++) {
        format();
        directory.secondary[3] = homes[at];
        directory.live[1] = at != 2;
        REFUSED(checked(rack_desk(memory, WORDS, &directory, 0)), RACK_UNFIT, 0);
    }
    for (uint32_t awaited = 2; awaited < 4; awaited++) { /* live, no card */
        format();
        directory.awaited = awaited;
        REFUSED(checked(rack_desk(memory, WORDS, &directory, 0)), RACK_UNFIT, 0);
    }
    format();
    ACCEPTED(rack_open(memory, WORDS, &directory, 1, 1, desk, list, 5));
    const uint32_t changed[] = { OPEN, STEPS, LIST, LIST + 1 }; /* neither 0 nor 1, too many steps, a faulty list */
    for (int at = 0; at < 4; at++) {
        uint32_t *word = memory + AREA + changed[at], before = *word;
        *word = at == 1 ? 4 * 2 + 11 : 2;
        REFUSED(checked(rack_desk(memory, WORDS, &directory, 0)), RACK_UNFIT, 0);
        *word = before;
    }
    memory[AREA + STEPS] = 4 * 2 + 10;
    memory[AREA + LIST + 5] = 2; /* past the list's end word: not read */
    ACCEPTED(rack_desk(memory, WORDS, &directory, 0));
}

static void reader_calls(void) {
    uint32_t page[RACK_PAGE_WORDS + 1], page_before[RACK_PAGE_WORDS + 1];
    format();
    ACCEPTED(rack_open(memory, WORDS, &directory, 1, 1, desk, list, 5));
    for (int step = 0; step < 13; step++) ACCEPTED(rack_step(memory, WORDS, &directory, 1));
    memset(page, 0xA5, sizeof page);
    memcpy(page_before, page, sizeof page);
    REFUSED(rack_fetch(memory, WORDS, &directory, 4, page, RACK_PAGE_WORDS), RACK_NO_PAGE, 0);
    REFUSED(rack_fetch(memory, WORDS, &directory, 1, page, RACK_PAGE_WORDS), RACK_PAGE_IN_MOTION, 1);
    REFUSED(rack_fetch(memory, WORDS, &directory, 0, page, RACK_PAGE_WORDS - 1), RACK_WRONG_BUFFER, 0);
    REFUSED(rack_fetch(memory, WORDS, &directory, 0, page, RACK_PAGE_WORDS + 1), RACK_WRONG_BUFFER, 0);
    REFUSED(rack_fetch(memory, WORDS, &directory, 0, NULL, 0), RACK_WRONG_BUFFER, 0);
    EXPECT(memcmp(page, page_before, sizeof page) == 0);
    ACCEPTED(rack_fetch(memory, WORDS, &directory, 0, page, RACK_PAGE_WORDS));
    EXPECT(page[0] == 0 && page[RACK_PAGE_WORDS - 1] == 0 && page[RACK_PAGE_WORDS] == 0xA5A5A5A5);
}

/* An answer to several steps, as an answer whose steps are checked. */
static rack_answer made(rack_steps_answer stepped, uint32_t expected) {
    EXPECT(stepped.made == expected);
    if (stepped.number == RACK_ACCEPTED) EXPECT(stepped.value == expected);
    rack_answer answer = { stepped.number, stepped.value };
    return answer;
}

static void several_steps(void) {
    static uint32_t memory_single[WORDS + 1];
    format();
    REFUSED(made(rack_steps(memory, WORDS - 1, &directory, 1, 2), 0), RACK_LIMITS, 0);
    REFUSED(made(rack_steps(memory, WORDS, &directory, 3, 2), 0), RACK_NO_CARD, 0);
    REFUSED(made(rack_steps(memory, WORDS, &directory, 1, 2), 0), RACK_NONE_OPEN, 0);
    KEPT(made(rack_steps(memory, WORDS, &directory, 1, 0), 0));
    KEPT(made(rack_steps(NULL, 0, &directory, 9, 0), 0));
    memory[AREA + OPEN] = 2;
    REFUSED(made(rack_steps(memory, WORDS, &directory, 1, UINT32_MAX), 0), RACK_UNFIT, 0);
    for (uint32_t count = 1; count <= 20; count++) {
        format();
        ACCEPTED(rack_open(memory, WORDS, &directory, 1, 1, desk, list, 5));
        for (uint32_t step = 0; step < count; step++) rack_step(memory, WORDS, &directory, 1);
        memcpy(memory_single, memory, sizeof memory);
        format();
        ACCEPTED(rack_open(memory, WORDS, &directory, 1, 1, desk, list, 5));
        directory_before = directory;
        rack_steps_answer stepped = rack_steps(memory, WORDS, &directory, 1, count);
        EXPECT(stepped.number == (count == 20 ? RACK_NONE_OPEN : RACK_ACCEPTED));
        EXPECT(stepped.made == (count == 20 ? 19 : count));
        EXPECT(stepped.value == (count == 20 ? 0 : count));
        EXPECT(memcmp(memory, memory_single, sizeof memory) == 0);
        EXPECT(memcmp(&directory, &directory_before, sizeof directory) == 0);
    }
}

/* A refused fetch of all pages, as an answer whose marks are checked. */
static rack_answer none_shown(rack_fetch_all_answer fetched) {
    uint8_t none[RACK_MAX_PAGES] = { 0 };
    EXPECT(memcmp(fetched.shown, none, sizeof none) == 0);
    rack_answer answer = { fetched.number, fetched.value };
    return answer;
}

static void all_pages(void) {
    uint32_t pages[PRICES + 1], pages_before[PRICES + 1];
    uint8_t all[RACK_MAX_PAGES] = { 1, 1, 1, 1 }, but_1[RACK_MAX_PAGES] = { 1, 0, 1, 1 };
    format();
    memset(pages, 0xA5, sizeof pages);
    memcpy(pages_before, pages, sizeof pages);
    REFUSED(none_shown(rack_fetch_all(memory, WORDS + 1, &directory, pages, PRICES)), RACK_LIMITS, 0);
    REFUSED(none_shown(rack_fetch_all(memory, WORDS, &directory, pages, PRICES - 1)), RACK_WRONG_BUFFER, 0);
    REFUSED(none_shown(rack_fetch_all(memory, WORDS, &directory, pages, PRICES + 1)), RACK_WRONG_BUFFER, 0);
    REFUSED(none_shown(rack_fetch_all(memory, WORDS, &directory, NULL, 0)), RACK_WRONG_BUFFER, 0);
    directory.primary[3] = 7;
    REFUSED(none_shown(rack_fetch_all(memory, WORDS, &directory, pages, PRICES)), RACK_UNFIT, 0);
    EXPECT(memcmp(pages, pages_before, sizeof pages) == 0);
    format();
    ACCEPTED(rack_open(memory, WORDS, &directory, 1, 1, desk, list, 5));
    ACCEPTED(rack_steps(memory, WORDS, &directory, 1, 13));
    rack_fetch_all_answer fetched = rack_fetch_all(memory, WORDS, &directory, pages, PRICES);
    EXPECT(fetched.number == RACK_ACCEPTED && fetched.value == 0);
    EXPECT(memcmp(fetched.shown, but_1, sizeof but_1) == 0);
    EXPECT(pages[31] == 0 && pages[32] == 0xA5A5A5A5 && pages[63] == 0xA5A5A5A5 && pages[64] == 0);
    ACCEPTED(rack_steps(memory, WORDS, &directory, 1, 6));
    fetched = rack_fetch_all(memory, WORDS, &directory, pages, PRICES);
    EXPECT(fetched.number == RACK_ACCEPTED && fetched.value == 0);
    EXPECT(memcmp(fetched.shown, all, sizeof all) == 0);
    EXPECT(pages[33] == 0 && pages[34] == 250 && pages[35] == 199);
    EXPECT(pages[PRICES - 1] == 0 && pages[PRICES] == 0xA5A5A5A5);
    ACCEPTED(rack_fail(memory, WORDS, &directory, 1));
    REFUSED(none_shown(rack_fetch_all(memory, WORDS, &directory, pages, PRICES)), RACK_RECOVERY_AWAITED, 0);
    REFUSED(made(rack_steps(memory, WORDS, &directory, 0, 1), 0), RACK_RECOVERY_AWAITED, 0);
}

static void card_calls(void) {
    uint32_t page[RACK_PAGE_WORDS];
    format();
    ACCEPTED(rack_open(memory, WORDS, &directory, 1, 1, desk, list, 5));
    for (int step = 0; step < 13; step++) ACCEPTED(rack_step(memory, WORDS, &directory, 1));
    REFUSED(checked(rack_recover(memory, WORDS, &directory)), RACK_NONE_AWAITED, 0);
    REFUSED(rack_join(memory, WORDS, &directory, 1), RACK_CARD_LIVE, 0);
    REFUSED(rack_fail(memory, WORDS, &directory, 3), RACK_NO_CARD, 0);
    /* any word but 0 says live; a refusal keeps it, an accepted call writes 1 */
    directory.live[2] = directory.live[7] = 2;
    REFUSED(rack_fail(memory, WORDS, &directory, 3), RACK_NO_CARD, 0);
    ACCEPTED(rack_fail(memory, WORDS, &directory, 1));
    EXPECT(directory.live[1] == 0 && directory.live[2] == 1 && directory.awaited == 1);
    EXPECT(directory.live[3] == 0 && directory.live[7] == 1);
    memset(memory + AREA, 0xA5, AREA * sizeof *memory); /* the failed card's memory may hold anything */
    REFUSED(rack_step(memory, WORDS, &directory, 0), RACK_RECOVERY_AWAITED, 0);
    rack_desk_answer found = rack_recover(memory, WORDS, &directory);
    EXPECT(found.number == RACK_ACCEPTED && found.value == 1 && memcmp(found.desk, desk, sizeof desk) == 0);
    EXPECT(directory.awaited == RACK_RUNNING && directory.primary[1] == 2 && directory.secondary[1] == 0);
    ACCEPTED(rack_fetch(memory, WORDS, &directory, 1, page, RACK_PAGE_WORDS));
    EXPECT(page[1] == 0 && page[2] == 250 && page[3] == 199);
    REFUSED(rack_fail(memory, WORDS, &directory, 0), RACK_TWO_LIVE, 0);
    ACCEPTED(rack_open(memory, WORDS, &directory, 0, 1, desk, list, 5));
    REFUSED(rack_join(memory, WORDS, &directory, 1), RACK_JOIN_WHILE_OPEN, 0);
    while (rack_step(memory, WORDS, &directory, 0).number == RACK_ACCEPTED) { }
    ACCEPTED(rack_join(memory, WORDS, &directory, 1));
    EXPECT(directory.live[1] == 1);
    ACCEPTED(rack_fail(memory, WORDS, &directory, 2)); /* it never released */
    found = rack_recover(memory, WORDS, &directory);
    const uint32_t zeros[RACK_DESK_WORDS] = { 0 };
    EXPECT(found.number == RACK_ACCEPTED && found.value == 0 && memcmp(found.desk, zeros, sizeof zeros) == 0);
}

/*
** 8 pages on 5 cards, of which card 1 and then card 2 fail: a lost home goes to the card that is home to the fewest
** pages, the lowest on a tie, and the page can be fetched there once it is the primary.
*/
static void new_homes(void) {
    static const struct {
        uint32_t card, homes[8][2];
    } lost[] = {
        { 1, { { 0, 4 }, { 2, 0 }, { 2, 3 }, { 3, 4 }, { 4, 0 }, { 0, 3 }, { 2, 4 }, { 2, 3 } } },
        { 2, { { 0, 4 }, { 0, 3 }, { 3, 0 }, { 3, 4 }, { 4, 0 }, { 0, 3 }, { 4, 0 }, { 3, 4 } } },
    };
    static uint32_t five[RACK_MEMORY_WORDS(5, 8)], prices[RACK_PAGE_WORDS];
    const size_t words = RACK_MEMORY_WORDS(5, 8);
    ACCEPTED(rack_format(five, words, 5, 8, &directory));
    ACCEPTED(rack_open(five, words, &directory, 2, 1, desk, list, 5));
    ACCEPTED(rack_steps(five, words, &directory, 2, 19));
    for (size_t at = 0; at < sizeof lost / sizeof *lost; at++) {
        ACCEPTED(rack_fail(five, words, &directory, lost[at].card));
        ACCEPTED(rack_recover(five, words, &directory));
        for (int page = 0; page < 8; page++) {
            EXPECT(directory.primary[page] == lost[at].homes[page][0]);
            EXPECT(directory.secondary[page] == lost[at].homes[page][1]);
        }
        ACCEPTED(rack_fetch(five, words, &directory, 1, prices, RACK_PAGE_WORDS));
        EXPECT(prices[1] == 0 && prices[2] == 250 && prices[3] == 199);
    }
}

/* A rack whose card 1 has this last number, as its record on its backup has it, too. */
static void format_with_last(uint64_t last) {
    uint32_t *const numbers[] = { memory + AREA + STAMP, record, record + 2 };
    format();
    for (int at = 0; at < 3; at++) {
        numbers[at][0] = (uint32_t)last;
        numbers[at][1] = (uint32_t)(last >> 32);
    }
}

static rack_answer open_numbered(uint64_t number) {
    return rack_open(memory, WORDS, &directory, 1, number, desk, list, 5);
}

static rack_answer move_in(void) { return rack_move_in(old_memory, OLD_WORDS, &directory, memory, WORDS); }

static rack_answer move_back(void) { return rack_move_back(memory, WORDS, &directory, old_memory, OLD_WORDS); }

static void large_numbers(void) {
    const uint32_t counted[] = { 0, 1, 4294967295, 0 }, closed[] = { 0, 1, 0, 1 };
    format_with_last(4294967295);
    ACCEPTED(move_back());
    REFUSED(open_numbered(7), RACK_NUMBER_USED, 4294967295);
    REFUSED(open_numbered(4294967295), RACK_NUMBER_USED, 4294967295);
    REFUSED(open_numbered(4294967297), RACK_NUMBER_AHEAD, 0);
    ACCEPTED(open_numbered(4294967296));
    EXPECT(memory[AREA + NUMBER] == 0 && memory[AREA + NUMBER + 1] == 1);
    ACCEPTED(rack_steps(memory, WORDS, &directory, 1, 13));
    EXPECT(memcmp(record, counted, sizeof counted) == 0);
    REFUSED(move_back(), RACK_JOIN_WHILE_OPEN, 0);
    ACCEPTED(rack_steps(memory, WORDS, &directory, 1, 6));
    EXPECT(memcmp(record, closed, sizeof closed) == 0);
    EXPECT(memcmp(record + 4, desk, sizeof desk) == 0); /* the even desk */
    EXPECT(memory[AREA + STAMP] == 0 && memory[AREA + STAMP + 1] == 1);
    REFUSED(open_numbered(4294967296), RACK_NUMBER_USED, 4294967296);
    REFUSED(move_back(), RACK_STAMP_TOO_HIGH, 0);
    ACCEPTED(rack_fail(memory, WORDS, &directory, 1));
    rack_desk_answer found = rack_recover(memory, WORDS, &directory);
    EXPECT(found.number == RACK_ACCEPTED && found.value == 4294967296 && memcmp(found.desk, desk, sizeof desk) == 0);
    REFUSED(move_back(), RACK_STAMP_TOO_HIGH, 0); /* for its records, which are on live cards */

    const uint64_t numbers[] = { 0, 1, 4294967295, 4294967296, UINT64_MAX };
    format_with_last(UINT64_MAX);
    for (int at = 0; at < 5; at++) REFUSED(open_numbered(numbers[at]), RACK_NUMBER_USED, 18446744073709551615u);
    format_with_last(UINT64_MAX - 1);
    ACCEPTED(open_numbered(UINT64_MAX));
}

/* The old form of a rack on which card 1 released 250 and 199, at words 2 and 3 of page 1, with a desk of sevens. */
static void release_in_old_form(void) {
    uint32_t *own = old_memory + OLD_AREA, *backup = own + OLD_AREA;
    uint32_t *old_record = backup + OLD_RECORDS + OLD_RECORD_WORDS;
    memset(old_memory, 0, sizeof old_memory);
    own[STAMP] = old_record[0] = old_record[1] = 1;
    for (int word = 0; word < RACK_DESK_WORDS; word++)
        own[STAMP + 1 + word] = old_record[2 + RACK_DESK_WORDS + word] = 7; /* the own desk, and the odd one */
    for (int copy = 0; copy < 2; copy++) {
        int at = OLD_PAGES + (2 + copy) * RACK_PAGE_WORDS + 2;
        own[at] = backup[at] = 250;
        own[at + 1] = backup[at + 1] = 199;
    }
}

static void moves(void) {
    static uint32_t released[OLD_WORDS + 1];
    const uint32_t sevens[RACK_DESK_WORDS] = { 7, 7, 7, 7, 7, 7, 7, 7 };
    EXPECT(OLD_WORDS == 2796);
    format();
    ACCEPTED(rack_open(memory, WORDS, &directory, 1, 1, sevens, list, 5));
    ACCEPTED(rack_steps(memory, WORDS, &directory, 1, 19));
    memcpy(memory_before, memory, sizeof memory);
    directory_before = directory;
    release_in_old_form();
    memcpy(released, old_memory, sizeof released);
    memset(memory, 0xA5, sizeof memory);
    rack_answer moved = move_in();
    EXPECT(moved.number == RACK_ACCEPTED && moved.value == 0);
    EXPECT(memcmp(memory, memory_before, WORDS * sizeof *memory) == 0 && memory[WORDS] == 0xA5A5A5A5);
    EXPECT(memcmp(old_memory, released, sizeof released) == 0);

    memcpy(memory_before, memory, sizeof memory);
    memset(old_memory, 0x5A, sizeof old_memory);
    moved = move_back();
    EXPECT(moved.number == RACK_ACCEPTED && moved.value == 0);
    EXPECT(memcmp(old_memory, released, OLD_WORDS * sizeof *released) == 0 && old_memory[OLD_WORDS] == 0x5A5A5A5A);
    EXPECT(memcmp(memory, memory_before, sizeof memory) == 0);
    EXPECT(memcmp(&directory, &directory_before, sizeof directory) == 0);
}

static void refused_moves(void) {
    format();
    release_in_old_form();
    const size_t lengths[][2] = { { 2796, 2849 }, { 2796, 2851 }, { 2795, 2850 }, { 2797, 2850 }, { 2850, 2796 } };
    for (int at = 0; at < 5; at++) {
        size_t old_words = lengths[at][0], words = lengths[at][1];
        REFUSED(rack_move_in(old_memory, old_words, &directory, memory, words), RACK_LIMITS, 0);
        REFUSED(rack_move_back(memory, words, &directory, old_memory, old_words), RACK_LIMITS, 0);
    }
    directory.pages = 65;
    REFUSED(move_in(), RACK_LIMITS, 0);
    REFUSED(move_back(), RACK_LIMITS, 0);

    format();
    old_memory[OLD_AREA + OLD_OPEN] = memory[AREA + OPEN] = 2;
    REFUSED(move_in(), RACK_UNFIT, 0);
    REFUSED(move_back(), RACK_UNFIT, 0);
    old_memory[OLD_AREA + OLD_OPEN] = memory[AREA + OPEN] = 1;
    old_memory[OLD_AREA + OLD_LIST] = memory[AREA + LIST] = 0xF0000000;
    REFUSED(move_in(), RACK_JOIN_WHILE_OPEN, 0);
    REFUSED(move_back(), RACK_JOIN_WHILE_OPEN, 0);
    ACCEPTED(rack_fail(memory, WORDS, &directory, 1));
    REFUSED(move_in(), RACK_RECOVERY_AWAITED, 0);
    REFUSED(move_back(), RACK_RECOVERY_AWAITED, 0);
}

/* High words on the way back: each that is refused, and those that are dropped. */
static void high_words(void) {
    const uint32_t slot_7 = RECORDS + 7 * RECORD_WORDS; /* room for a record that a rack of 3 cards never reads */
    const uint32_t refused[] = { STAMP + 1, RECORDS + 1, RECORDS + 3, slot_7 + 1, slot_7 + 3 };
    for (int at = 0; at < 5; at++)
        for (int card = 0; card < CARDS; card++) {
            format();
            memory[card * AREA + refused[at]] = 1;
            REFUSED(move_back(), RACK_STAMP_TOO_HIGH, 0);
        }
    format();
    memory[AREA + NUMBER] = 6;
    memory[AREA + NUMBER + 1] = 9; /* that of no open release */
    ACCEPTED(move_back());
    EXPECT(old_memory[OLD_AREA + OLD_OPEN + 2] == 6 && old_memory[OLD_AREA + OLD_OPEN + 3] == 0);

    format_with_last(4294967295);
    ACCEPTED(rack_fail(memory, WORDS, &directory, 1));
    ACCEPTED(rack_recover(memory, WORDS, &directory));
    memory[AREA + STAMP + 1] = memory[AREA + slot_7 + 1] = 1; /* those of a dead card */
    ACCEPTED(move_back());
    EXPECT(old_memory[OLD_AREA + STAMP] == 4294967295 && old_memory[OLD_AREA + STAMP + 1] == 0);
    ACCEPTED(move_in());
    EXPECT(memory[AREA + STAMP + 1] == 0 && memory[AREA + slot_7 + 1] == 0);
}

/* What list work is lent: up to 65 pages with their twins and marks, and a list buffer. */
enum { TOO_MANY = RACK_MAX_PAGES + 1 };
static uint32_t working[TOO_MANY * RACK_PAGE_WORDS], twins[TOO_MANY * RACK_PAGE_WORDS], marks[TOO_MANY];
static uint32_t made_list[600];

/* Zero pages, but for labels 34 and 35, which have new prices and are marked. */
static void lend_two_prices(void) {
    memset(working, 0, sizeof working);
    memset(twins, 0, sizeof twins);
    memset(marks, 0, sizeof marks);
    memset(made_list, 0xA5, sizeof made_list);
    working[34] = 250;
    working[35] = 199;
    marks[1] = 1u << 2 | 1u << 3;
}

/* A list made of so many words of pages, twins and marks in a buffer of so many words. */
static rack_answer make_list(size_t pages, size_t of_twins, size_t of_marks, size_t room) {
    return rack_make_list(working, pages, twins, of_twins, marks, of_marks, made_list, room);
}

/* Refused list work: its number and place, and that it kept the list buffer and the marks. */
#define LIST_REFUSED_AT(call, expected_number, expected_place) \
    do { \
        uint32_t list_before[600], marks_before[TOO_MANY]; \
        memcpy(list_before, made_list, sizeof made_list); \
        memcpy(marks_before, marks, sizeof marks); \
        rack_answer answer = (call); \
        EXPECT(answer.number == (expected_number) && answer.value == (expected_place)); \
        EXPECT(memcmp(list_before, made_list, sizeof made_list) == 0); \
        EXPECT(memcmp(marks_before, marks, sizeof marks) == 0); \
    } while (0)

#define LIST_REFUSED(call, expected_number) LIST_REFUSED_AT(call, expected_number, 0)

/* A list of the marked words of 4 pages: these words, and what stands behind them is kept. */
static void expect_list(const uint32_t *expected, size_t length) {
    memset(made_list, 0xA5, sizeof made_list);
    rack_answer made = make_list(PRICES, PRICES, PAGES, 6);
    EXPECT(made.number == RACK_ACCEPTED && made.value == length);
    EXPECT(memcmp(made_list, expected, length * sizeof *expected) == 0 && made_list[length] == 0xA5A5A5A5);
}

static void list_maker(void) {
    const uint32_t confirmed[] = { 0x10000001, 0x20020001, 0, 0xF0000003 }, no_change[] = { 0xF0000000 };
    const uint32_t one_of_two[] = { 0x10000001, 0x20020001, 250, 0xF0000003 };
    lend_two_prices();
    expect_list(list, sizeof list / sizeof *list);
    marks[1] = 1u << 2; /* a new price without a mark is not named */
    expect_list(one_of_two, 4);
    marks[1] = 0;
    expect_list(no_change, 1);
    marks[1] = 1u << 2; /* a price set again to what it was is named */
    working[34] = working[35] = 0;
    expect_list(confirmed, 4);

    marks[1] = UINT32_MAX;
    EXPECT(make_list(PRICES, PRICES, PAGES, 35).value == 35);
    marks[1] = 0x55555555;
    EXPECT(make_list(PRICES, PRICES, PAGES, 34).value == 34);
    memset(marks, 0xFF, 15 * sizeof *marks);
    EXPECT(make_list(16 * RACK_PAGE_WORDS, 16 * RACK_PAGE_WORDS, 16, 511).value == 511);
}

static void list_work_refused(void) {
    const size_t most = RACK_MAX_PAGES * RACK_PAGE_WORDS, over = TOO_MANY * RACK_PAGE_WORDS;
    lend_two_prices();
    LIST_REFUSED(make_list(PRICES, PRICES - RACK_PAGE_WORDS, PAGES, 600), RACK_LIMITS);
    LIST_REFUSED(make_list(PRICES - 1, PRICES - 1, PAGES - 1, 600), RACK_LIMITS);
    LIST_REFUSED(make_list(0, 0, 0, 600), RACK_LIMITS);
    LIST_REFUSED(make_list(over, over, TOO_MANY, 600), RACK_LIMITS);
    LIST_REFUSED(make_list(PRICES, PRICES, PAGES - 1, 600), RACK_LIMITS);
    LIST_REFUSED(make_list(PRICES, PRICES, PAGES + 1, 600), RACK_LIMITS);
    LIST_REFUSED(make_list(most, most, RACK_MAX_PAGES - 1, 600), RACK_LIMITS);
    LIST_REFUSED(make_list(PRICES, PRICES, PAGES - 1, 0), RACK_LIMITS); /* 1 before 17 */
    LIST_REFUSED(make_list(PRICES, PRICES, PAGES, 4), RACK_WRONG_BUFFER);
    memset(marks, 0xFF, 16 * sizeof *marks);
    LIST_REFUSED(make_list(16 * RACK_PAGE_WORDS, 16 * RACK_PAGE_WORDS, 16, 600), RACK_WRONG_BUFFER);
    EXPECT(rack_make_list(NULL, 0, NULL, 0, NULL, 0, NULL, 0).number == RACK_LIMITS);

    LIST_REFUSED(rack_mark_changes(working, PRICES, twins, PRICES - RACK_PAGE_WORDS, marks, PAGES), RACK_LIMITS);
    LIST_REFUSED(rack_mark_changes(working, PRICES - 1, twins, PRICES - 1, marks, PAGES - 1), RACK_LIMITS);
    LIST_REFUSED(rack_mark_changes(working, over, twins, over, marks, TOO_MANY), RACK_LIMITS);
    LIST_REFUSED(rack_mark_changes(working, PRICES, twins, PRICES, marks, PAGES - 1), RACK_LIMITS);
    LIST_REFUSED(rack_mark_changes(working, PRICES, twins, PRICES, marks, PAGES + 1), RACK_LIMITS);
    EXPECT(rack_mark_changes(NULL, 0, NULL, 0, NULL, 0).number == RACK_LIMITS);
}

static void marks_of_changes(void) {
    lend_two_prices();
    working[0] = working[127] = 7;
    memset(marks, 0xA5, sizeof marks);
    rack_answer marked = rack_mark_changes(working, PRICES, twins, PRICES, marks, PAGES);
    EXPECT(marked.number == RACK_ACCEPTED && marked.value == 0);
    EXPECT(marks[0] == 1 && marks[1] == 12 && marks[2] == 0 && marks[3] == 0x80000000 && marks[4] == 0xA5A5A5A5);
}

/* A list of changes, with room for one word too many. */
typedef struct changes {
    size_t length;
    uint32_t words[RACK_LIST_WORDS + 1];
} changes;

static const changes no_changes = { 1, { 0xF0000000 } };

/* Merges two lists, which are kept, into a buffer of so many words. */
static rack_answer merge(const changes *first, const changes *second, size_t room) {
    const changes kept[] = { *first, *second };
    rack_answer merged = rack_merge_lists(first->words, first->length, second->words, second->length, made_list, room);
    EXPECT(memcmp(first->words, kept[0].words, sizeof first->words) == 0);
    EXPECT(memcmp(second->words, kept[1].words, sizeof second->words) == 0);
    return merged;
}

/* Two lists and what they merge into, in buffers with just room for it and more: what stands behind it is kept. */
static void expect_merged(const changes *first, const changes *second, const changes *expected) {
    const size_t rooms[] = { expected->length, RACK_LIST_WORDS, 600 };
    uint32_t after[600];
    memset(after, 0xA5, sizeof after);
    memcpy(after, expected->words, expected->length * sizeof *after);
    for (int at = 0; at < 3; at++) {
        memset(made_list, 0xA5, sizeof made_list);
        rack_answer merged = merge(first, second, rooms[at]);
        EXPECT(merged.number == RACK_ACCEPTED && merged.value == expected->length);
        EXPECT(memcmp(made_list, after, sizeof made_list) == 0);
    }
    LIST_REFUSED(merge(first, second, expected->length - 1), RACK_WRONG_BUFFER);
}

static void merged_lists(void) {
    static const changes merges[][3] = { /* first, second, merged */
        /* labels 34 and 35, then 35 and 64, and the other way round */
        { { 5, { 0x10000001, 0x20020002, 250, 199, 0xF0000004 } },
          { 7, { 0x10000001, 0x20030001, 175, 0x10000002, 0x20000001, 5, 0xF0000006 } },
          { 8, { 0x10000001, 0x20020002, 0xFA, 0xAF, 0x10000002, 0x20000001, 5, 0xF0000007 } } },
        { { 7, { 0x10000001, 0x20030001, 175, 0x10000002, 0x20000001, 5, 0xF0000006 } },
          { 5, { 0x10000001, 0x20020002, 250, 199, 0xF0000004 } },
          { 8, { 0x10000001, 0x20020002, 0xFA, 0xC7, 0x10000002, 0x20000001, 5, 0xF0000007 } } },
        /* runs that touch become one */
        { { 4, { 0x10000000, 0x20000001, 1, 0xF0000003 } },
          { 4, { 0x10000000, 0x20010001, 2, 0xF0000003 } },
          { 5, { 0x10000000, 0x20000002, 1, 2, 0xF0000004 } } },
        { { 6, { 0x10000000, 0x20000001, 1, 0x20020001, 3, 0xF0000005 } },
          { 4, { 0x10000000, 0x20010001, 2, 0xF0000003 } },
          { 6, { 0x10000000, 0x20000003, 1, 2, 3, 0xF0000005 } } },
        /* but not across pages */
        { { 4, { 0x10000000, 0x201F0001, 1, 0xF0000003 } },
          { 4, { 0x10000001, 0x20000001, 2, 0xF0000003 } },
          { 7, { 0x10000000, 0x201F0001, 1, 0x10000001, 0x20000001, 2, 0xF0000006 } } },
        /* the first page and the last, whatever comes first */
        { { 4, { 0x1000003F, 0x201F0001, 7, 0xF0000003 } },
          { 4, { 0x10000000, 0x20000001, 1, 0xF0000003 } },
          { 7, { 0x10000000, 0x20000001, 1, 0x1000003F, 0x201F0001, 7, 0xF0000006 } } },
        /* a word that both name at the same price stays named, also at 0 */
        { { 5, { 0x10000001, 0x20020002, 250, 0, 0xF0000004 } },
          { 5, { 0x10000001, 0x20020002, 250, 0, 0xF0000004 } },
          { 5, { 0x10000001, 0x20020002, 250, 0, 0xF0000004 } } },
        /* prices that look like other words */
        { { 5, { 0x10000000, 0x20000002, 0xF0000002, 0x10000000, 0xF0000004 } },
          { 5, { 0x10000000, 0x20010002, 0x20020001, 0xF0000000, 0xF0000004 } },
          { 6, { 0x10000000, 0x20000003, 0xF0000002, 0x20020001, 0xF0000000, 0xF0000005 } } },
    };
    for (size_t at = 0; at < sizeof merges / sizeof *merges; at++) {
        expect_merged(&merges[at][0], &merges[at][1], &merges[at][2]);
        for (int of = 0; of < 3; of++) {
            expect_merged(&merges[at][of], &no_changes, &merges[at][of]);
            expect_merged(&no_changes, &merges[at][of], &merges[at][of]);
        }
    }
    expect_merged(&no_changes, &no_changes, &no_changes);
}

/* The list of the marked words of 20 pages, as the list maker makes it. */
static changes marked_list(void) {
    const size_t pages = 20, words = pages * RACK_PAGE_WORDS;
    changes marked = { 0, { 0 } };
    rack_answer made = rack_make_list(working, words, twins, words, marks, pages, marked.words, RACK_LIST_WORDS);
    EXPECT(made.number == RACK_ACCEPTED);
    marked.length = (size_t)made.value;
    return marked;
}

/*
** The list of those of labels 30 to 33, on two pages, that have a bit in one of three sets, at the price of the last of
** these sets. Label 31 has the same price in all three.
*/
static changes list_of_sets(uint32_t first, uint32_t second, uint32_t third) {
    const uint32_t sets[] = { first, second, third };
    memset(marks, 0, sizeof marks);
    for (uint32_t set = 0; set < 3; set++)
        for (uint32_t bit = 0; bit < 4; bit++) {
            uint32_t label = 30 + bit;
            if ((sets[set] >> bit & 1) == 0) continue;
            working[label] = label == 31 ? 7 : 100 * set + bit;
            marks[label / RACK_PAGE_WORDS] |= (uint32_t)1 << label % RACK_PAGE_WORDS;
        }
    return marked_list();
}

/* All lists of four labels: two of them, and three of which the first two or the last two are merged first. */
static void merged_sets(void) {
    for (uint32_t sets = 0; sets < 16 * 16 * 16; sets++) {
        const uint32_t a = sets & 15, b = sets >> 4 & 15, c = sets >> 8;
        const changes first = list_of_sets(a, 0, 0), second = list_of_sets(0, b, 0), third = list_of_sets(0, 0, c);
        const changes first_two = list_of_sets(a, b, 0), last_two = list_of_sets(0, b, c);
        const changes all = list_of_sets(a, b, c);
        expect_merged(&first, &second, &first_two);
        expect_merged(&second, &third, &last_two);
        expect_merged(&first_two, &third, &all);
        expect_merged(&first, &last_two, &all);
    }
}

/* The pages after two releases are those after one release of the merged list. */
static void merged_release(void) {
    const uint32_t later[] = { 0x10000001, 0x20030001, 175, 0x10000002, 0x20000001, 5, 0xF0000006 };
    uint32_t one_by_one[PRICES], at_once[PRICES];
    format();
    ACCEPTED(rack_open(memory, WORDS, &directory, 1, 1, desk, list, 5));
    ACCEPTED(rack_steps(memory, WORDS, &directory, 1, 19));
    ACCEPTED(rack_open(memory, WORDS, &directory, 1, 2, desk, later, 7));
    ACCEPTED(rack_steps(memory, WORDS, &directory, 1, 19));
    ACCEPTED(rack_fetch_all(memory, WORDS, &directory, one_by_one, PRICES));
    EXPECT(one_by_one[34] == 250 && one_by_one[35] == 175 && one_by_one[64] == 5);
    format();
    rack_answer merged = rack_merge_lists(list, 5, later, 7, made_list, RACK_LIST_WORDS);
    ACCEPTED(merged);
    ACCEPTED(rack_open(memory, WORDS, &directory, 1, 1, desk, made_list, (size_t)merged.value));
    ACCEPTED(rack_steps(memory, WORDS, &directory, 1, 23));
    ACCEPTED(rack_fetch_all(memory, WORDS, &directory, at_once, PRICES));
    EXPECT(memcmp(one_by_one, at_once, sizeof at_once) == 0);
}

/* The list of the pages from one to below another, with these words of each. */
static changes list_of_pages(uint32_t from, uint32_t to, uint32_t marked) {
    memset(marks, 0, sizeof marks);
    for (uint32_t page = from; page < to; page++) marks[page] = marked;
    return marked_list();
}

/* Up to 512 words a merged list is made, however long the two are together; from 513 on it is refused. */
static void long_merges(void) {
    for (uint32_t label = 0; label < TOO_MANY * RACK_PAGE_WORDS; label++) working[label] = label;
    const changes even = list_of_pages(0, 15, 0x55555555), odd = list_of_pages(0, 15, 0xAAAAAAAA);
    const changes whole = list_of_pages(0, 15, UINT32_MAX);
    EXPECT(even.length == 496 && odd.length == 496 && whole.length == 511);
    expect_merged(&even, &odd, &whole);
    expect_merged(&odd, &even, &whole);
    expect_merged(&whole, &odd, &whole);

    const changes most = list_of_pages(0, 14, UINT32_MAX), fits = list_of_pages(14, 19, 0x1F);
    const changes too_long = list_of_pages(14, 18, 0x7F);
    changes longest = most, over = most; /* of 512 words, and of 513 */
    EXPECT(most.length == 477 && fits.length == 36 && too_long.length == 37);
    memcpy(longest.words + 476, fits.words, 35 * sizeof *fits.words);
    memcpy(over.words + 476, too_long.words, 36 * sizeof *too_long.words);
    longest.words[511] = 0xF00001FF;
    longest.length = 512;
    over.words[512] = 0xF0000200;
    over.length = 513;
    expect_merged(&most, &fits, &longest);
    expect_merged(&fits, &most, &longest);
    expect_merged(&longest, &longest, &longest);
    LIST_REFUSED(merge(&most, &too_long, 600), RACK_LIST_TOO_LONG);
    LIST_REFUSED(merge(&too_long, &longest, 600), RACK_LIST_TOO_LONG);
    LIST_REFUSED_AT(merge(&over, &no_changes, 600), RACK_FAULTY_LIST, 512);
    LIST_REFUSED_AT(merge(&no_changes, &over, 600), RACK_FAULTY_LIST, 512);
}

static void too_long_merges(void) {
    const changes low = list_of_pages(0, 8, UINT32_MAX), high = list_of_pages(8, 16, UINT32_MAX);
    changes cut = high; /* less its end word */
    cut.length = 272;
    EXPECT(low.length == 273 && high.length == 273);
    LIST_REFUSED(merge(&low, &high, 600), RACK_LIST_TOO_LONG);
    LIST_REFUSED(merge(&high, &low, RACK_LIST_WORDS), RACK_LIST_TOO_LONG);
    LIST_REFUSED(merge(&low, &high, 272), RACK_LIST_TOO_LONG); /* 19 before 17 */
    LIST_REFUSED(rack_merge_lists(low.words, 273, high.words, 273, NULL, 0), RACK_LIST_TOO_LONG);
    LIST_REFUSED_AT(merge(&low, &cut, 600), RACK_FAULTY_LIST, 272); /* 7 before 19 */
    LIST_REFUSED_AT(merge(&cut, &low, 600), RACK_FAULTY_LIST, 272);
}

static void merges_refused(void) {
    memset(made_list, 0xA5, sizeof made_list);
    for (int at = 0; at < FAULTY; at++) {
        const uint32_t *words = faulty[at].words, *end = no_changes.words;
        const size_t length = faulty[at].length, place = faulty[at].place;
        LIST_REFUSED_AT(rack_merge_lists(words, length, end, 1, made_list, 600), RACK_FAULTY_LIST, place);
        LIST_REFUSED_AT(rack_merge_lists(end, 1, words, length, made_list, 600), RACK_FAULTY_LIST, place);
        LIST_REFUSED_AT(rack_merge_lists(list, 5, words, length, NULL, 0), RACK_FAULTY_LIST, place); /* 7 before 17 */
        for (int other = 0; other < FAULTY; other++) { /* the first list before the second */
            rack_answer merged = rack_merge_lists(words, length, faulty[other].words, faulty[other].length, NULL, 0);
            EXPECT(merged.number == RACK_FAULTY_LIST && merged.value == place);
        }
    }
    LIST_REFUSED_AT(rack_merge_lists(NULL, 0, list, 5, made_list, 600), RACK_FAULTY_LIST, 0);
    LIST_REFUSED_AT(rack_merge_lists(NULL, 0, list, 4, made_list, 600), RACK_FAULTY_LIST, 0);
    LIST_REFUSED_AT(rack_merge_lists(list, 4, NULL, 0, made_list, 600), RACK_FAULTY_LIST, 4);
    LIST_REFUSED_AT(rack_merge_lists(list, 5, NULL, 0, made_list, 600), RACK_FAULTY_LIST, 0);
    LIST_REFUSED_AT(rack_merge_lists(NULL, 0, NULL, 0, NULL, 0), RACK_FAULTY_LIST, 0);
    LIST_REFUSED(rack_merge_lists(list, 5, list, 5, made_list, 4), RACK_WRONG_BUFFER);
    LIST_REFUSED(rack_merge_lists(list, 5, list, 5, NULL, 0), RACK_WRONG_BUFFER);
    LIST_REFUSED(rack_merge_lists(no_changes.words, 1, no_changes.words, 1, NULL, 0), RACK_WRONG_BUFFER);
}

/* Any words at all: whatever stands in memory and directory, each call returns, and a refused one keeps both. */
static void any_words(void) {
    uint32_t page[RACK_PAGE_WORDS], pages[PRICES], state = 1;
    for (int round = 0; round < 2000; round++) {
        format();
        for (int change = 0; change <= round % 5; change++) {
            state = state * 1664525 + 1013904223;
            uint32_t word = state >> 8, value = state >> (state % 32);
            if (round % 2 == 0) ((uint32_t *)&directory)[word % (sizeof directory / sizeof value)] = value;
            else memory[word % WORDS] = value;
        }
        memcpy(memory_before, memory, sizeof memory);
        directory_before = directory;
        uint32_t card = state % 5;
        uint32_t numbers[] = {
            rack_fetch(memory, WORDS, &directory, card, page, RACK_PAGE_WORDS).number,
            rack_desk(memory, WORDS, &directory, card).number,
            rack_fetch_all(memory, WORDS, &directory, pages, PRICES).number,
        };
        EXPECT(numbers[0] <= RACK_WRONG_BUFFER && numbers[1] <= RACK_RECOVERY_AWAITED);
        EXPECT(numbers[2] <= RACK_WRONG_BUFFER);
        uint32_t number = rack_open(memory, WORDS, &directory, card, 1, desk, list, 5).number;
        if (number != RACK_ACCEPTED) EXPECT(memcmp(memory, memory_before, sizeof memory) == 0);
        memcpy(memory_before, memory, sizeof memory);
        number = rack_step(memory, WORDS, &directory, card).number;
        if (number != RACK_ACCEPTED) EXPECT(memcmp(memory, memory_before, sizeof memory) == 0);
        memcpy(memory_before, memory, sizeof memory);
        uint32_t count = (uint32_t)round % 40;
        rack_steps_answer stepped = rack_steps(memory, WORDS, &directory, card, count);
        EXPECT(stepped.made <= count);
        if (stepped.made == 0) EXPECT(memcmp(memory, memory_before, sizeof memory) == 0);
        number = rack_fail(memory, WORDS, &directory, card).number;
        if (number != RACK_ACCEPTED) EXPECT(memcmp(&directory, &directory_before, sizeof directory) == 0);
        memcpy(memory_before, memory, sizeof memory);
        directory_before = directory;
        number = rack_recover(memory, WORDS, &directory).number;
        if (number != RACK_ACCEPTED) EXPECT(memcmp(memory, memory_before, sizeof memory) == 0);
        if (number != RACK_ACCEPTED) EXPECT(memcmp(&directory, &directory_before, sizeof directory) == 0);
        rack_join(memory, WORDS, &directory, card);
    }
}

int main(void) {
    formatting();
    desk_calls();
    list_rules();
    unfit_racks();
    reader_calls();
    several_steps();
    all_pages();
    card_calls();
    new_homes();
    large_numbers();
    moves();
    refused_moves();
    high_words();
    list_maker();
    list_work_refused();
    marks_of_changes();
    merged_lists();
    merged_sets();
    merged_release();
    long_merges();
    too_long_merges();
    merges_refused();
    any_words();
    return failed;
}
