/*
** Bandsawpink: a price rack whose behaviour is proved. This header is the manual of the C
** library.
**
** THE RACK
**
** A rack has 3 to 8 cards and 1 to 64 pages. A page is 32 words, each one price in cents; the
** label of a price is 32 * page + word. Each page lives on two cards, its homes. A price desk
** releases a list of changes through a card, one store at a time; a release shows whole or not at
** all, also where a card fails between any two stores.
**
** MEMORY AND OWNERSHIP
**
** The caller owns everything: the memory of RACK_MEMORY_WORDS(cards, pages) words, the directory,
** the lists, the buffers. The library allocates nothing, keeps no pointer past a call, has no
** state of its own and does no input or output. What is passed as const is only read. A call is
** free to run beside calls on other racks; calls on one rack take turns.
**
** Memory and directory belong together and go to each call as the last call left them. A caller
** may store them and load them again: both are plain words, and any words at all may be handed
** in. A call refuses what does not fit.
**
** The memory has an area of 694 + 64 * pages words for each card, ascending. The number of a
** release has 64 bits and takes two words, the low one first; so do a stamp and a done mark, which
** are such numbers. In an area stand:
**
**     0, 1; 2 to 9              number (the card's stamp) and desk of its last closed release
**     10; 11; 12, 13; 14 to 21  a release is open (0 or 1); its steps made; its number; its desk
**     22 to 181                 for card c, at 22 + 20 * c: stamp, done mark, even desk, odd desk
**     182 to 693                the list of the open release, from its first word
**     694 + 64 * p              page p: 32 tentative prices, then 32 committed
**
** THE OLD FORM OF THE MEMORY
**
** A library before this one had numbers of 32 bits, in one word each, and areas of 676 + 64 * pages
** words: the same in the same order, the open release from 9 on, the record of card c at
** 20 + 18 * c, the list at 164 and page p at 676 + 64 * p. rack_move_in takes a rack from a memory
** of this old form to one of the form above, rack_move_back takes it back; one directory goes with
** both. A move is from one memory into another, never in place.
**
** All other calls take the form above. A rack of the old form that awaits a recovery, or on which a
** release is open, is not moved (refusals 11 and 15): the library that left it recovers it, or
** closes the release, and it is moved then.
**
** WHAT THE CALLER MUST SEE TO
**
** Each pointer with a count beside it has that many words to read or, where it is not const, to
** write; it may be null only if the count is 0. A directory and a desk are never null. What a
** call writes overlaps nothing else that is passed to it. Nothing else is assumed: any number, any
** word and any length may be handed in.
**
** ANSWERS
**
** Every call returns. A number of 0 says that it was accepted, and the value is what it gives.
** Any other number is a refusal, and the value is its place: 0 unless the list below names one. A
** refusal changes no word of a memory, the directory, a list, the marks or the buffer. There are
** two exceptions: rack_format writes the empty directory, and the steps that rack_steps made before
** the refused one stand. Checks run in the order that each function names, and the first that
** fails is answered.
**
** Each function is proved to answer and to leave what the project's specification of the call
** defines, on any words.
**
** EXAMPLE
**
**     uint32_t memory[RACK_MEMORY_WORDS(3, 4)];
**     uint32_t list[] = { 0x10000001, 0x20020001, 250, 0xF0000003 };
**     uint32_t desk[RACK_DESK_WORDS] = { 0 }, page[RACK_PAGE_WORDS];
**     size_t words = RACK_MEMORY_WORDS(3, 4);
**     rack_directory directory;
**     rack_answer answer = rack_format(memory, words, 3, 4, &directory);
**     if (answer.number != RACK_ACCEPTED) return refuse(answer);
**     answer = rack_open(memory, words, &directory, 1, 1, desk, list, 4);
**     if (answer.number != RACK_ACCEPTED) return refuse(answer);
**     rack_steps(memory, words, &directory, 1, UINT32_MAX);
**     answer = rack_fetch(memory, words, &directory, 1, page, RACK_PAGE_WORDS);
**     if (answer.number != RACK_ACCEPTED) return refuse(answer);
**
** and page[2] is 250. A list is mostly made by rack_make_list, of the words that a desk has marked:
**
**     uint32_t prices[4 * RACK_PAGE_WORDS] = { 0 }, twins[4 * RACK_PAGE_WORDS] = { 0 };
**     uint32_t marks[4] = { 0 }, buffer[RACK_LIST_WORDS];
**     prices[32 * 1 + 2] = 250;
**     marks[1] |= (uint32_t)1 << 2;
**     answer = rack_make_list(prices, 128, twins, 128, marks, 4, buffer, RACK_LIST_WORDS);
**     if (answer.number != RACK_ACCEPTED) return refuse(answer);
**
** and the buffer holds the list above. A desk that has another list waiting merges the two, the
** older one first, and releases them as one:
**
**     uint32_t later[] = { 0x10000001, 0x20030001, 199, 0xF0000003 }, merged[RACK_LIST_WORDS];
**     answer = rack_merge_lists(buffer, answer.value, later, 4, merged, RACK_LIST_WORDS);
**     if (answer.number != RACK_ACCEPTED) return refuse(answer);
**     answer = rack_open(memory, words, &directory, 1, 2, desk, merged, answer.value);
**     if (answer.number != RACK_ACCEPTED) return refuse(answer);
**     rack_steps(memory, words, &directory, 1, UINT32_MAX);
**     answer = rack_fetch(memory, words, &directory, 1, page, RACK_PAGE_WORDS);
**     if (answer.number != RACK_ACCEPTED) return refuse(answer);
**
** and page[2] is 250 and page[3] is 199. A merge that is refused with RACK_LIST_TOO_LONG leaves
** both lists as they are: the older one is released by itself. A rack that was stored in the old
** form is moved once it is loaded:
**
**     uint32_t old_memory[RACK_OLD_MEMORY_WORDS(3, 4)];
**     size_t old_words = RACK_OLD_MEMORY_WORDS(3, 4);
**     load(old_memory, old_words, &directory);
**     answer = rack_move_in(old_memory, old_words, &directory, memory, words);
**     if (answer.number != RACK_ACCEPTED) return refuse(answer);
*/
#ifndef BANDSAWPINK_H
#define BANDSAWPINK_H

#include <stddef.h>
#include <stdint.h>

#ifdef __cplusplus
extern "C" {
#endif

/*
** Limits and lengths
*/
#define RACK_MIN_CARDS 3
#define RACK_MAX_CARDS 8
#define RACK_MAX_PAGES 64
#define RACK_PAGE_WORDS 32  /* a page buffer */
#define RACK_DESK_WORDS 8   /* a desk: words that the price desk wants back */
#define RACK_LIST_WORDS 512 /* the longest list of changes: a buffer of this length is enough */

/* The memory of a rack, in words of 32 bits. A constant where both arguments are. */
#define RACK_MEMORY_WORDS(cards, pages) ((size_t)(cards) * (694 + 64 * (size_t)(pages)))

/* The same in the old form, which rack_move_in and rack_move_back take. */
#define RACK_OLD_MEMORY_WORDS(cards, pages) ((size_t)(cards) * (676 + 64 * (size_t)(pages)))

/*
** The directory: which cards are live, where the pages live, and whether the rack awaits a
** recovery. rack_format makes it, rack_fail, rack_recover and rack_join change it, all other
** calls only read it. Marks past the cards and homes past the pages are never read: rack_format
** makes them 0, all other calls keep them. An accepted call that changes the directory writes each
** of the 8 marks as 0 or 1, whatever other word said that a card is live.
*/
typedef struct rack_directory {
    uint32_t cards;
    uint32_t pages;
    uint32_t awaited;                   /* the card whose recovery is awaited, or RACK_RUNNING */
    uint32_t live[RACK_MAX_CARDS];      /* for each card, 0: dead; any other word: live */
    uint32_t primary[RACK_MAX_PAGES];   /* for each page, the card that fetches read */
    uint32_t secondary[RACK_MAX_PAGES]; /* for each page, its other home */
} rack_directory;

#define RACK_RUNNING UINT32_MAX

/* What a call answers. */
typedef struct rack_answer {
    uint32_t number; /* RACK_ACCEPTED, or a refusal */
    uint64_t value;  /* accepted: what the call gives; refused: the place */
} rack_answer;

/* What a call answers that gives a desk. */
typedef struct rack_desk_answer {
    uint32_t number;
    uint64_t value;
    uint32_t desk[RACK_DESK_WORDS]; /* all 0 if the call is refused */
} rack_desk_answer;

/* What rack_steps answers. */
typedef struct rack_steps_answer {
    uint32_t number;
    uint32_t made;  /* the steps made: also if a refusal stopped them */
    uint64_t value; /* accepted: the steps made; refused: the place */
} rack_steps_answer;

/* What rack_fetch_all answers. */
typedef struct rack_fetch_all_answer {
    uint32_t number;
    uint64_t value;
    uint8_t shown[RACK_MAX_PAGES]; /* 1 for each page that was copied, else 0; all 0 if refused */
} rack_fetch_all_answer;

/* The library was built for this layout. */
#ifdef __cplusplus
#define RACK_ASSERT(fact) static_assert(fact, #fact)
#else
#define RACK_ASSERT(fact) _Static_assert(fact, #fact)
#endif
RACK_ASSERT(sizeof(rack_directory) == 139 * sizeof(uint32_t));
RACK_ASSERT(offsetof(rack_directory, pages) == 1 * sizeof(uint32_t));
RACK_ASSERT(offsetof(rack_directory, awaited) == 2 * sizeof(uint32_t));
RACK_ASSERT(offsetof(rack_directory, live) == 3 * sizeof(uint32_t));
RACK_ASSERT(offsetof(rack_directory, primary) == 11 * sizeof(uint32_t));
RACK_ASSERT(offsetof(rack_directory, secondary) == 75 * sizeof(uint32_t));
RACK_ASSERT(sizeof(rack_answer) == 16 && offsetof(rack_answer, value) == 8);
RACK_ASSERT(sizeof(rack_desk_answer) == 48 && offsetof(rack_desk_answer, value) == 8);
RACK_ASSERT(offsetof(rack_desk_answer, desk) == 16);
RACK_ASSERT(sizeof(rack_steps_answer) == 16 && offsetof(rack_steps_answer, made) == 4);
RACK_ASSERT(offsetof(rack_steps_answer, value) == 8);
RACK_ASSERT(sizeof(rack_fetch_all_answer) == 80 && offsetof(rack_fetch_all_answer, value) == 8);
RACK_ASSERT(offsetof(rack_fetch_all_answer, shown) == 16);
RACK_ASSERT(sizeof(size_t) == 8);
#undef RACK_ASSERT

/*
** Refusals, by who caused them. The number 18, an unreadable line, belongs to the program shelfrun.
*/
#define RACK_ACCEPTED 0

/* Whoever fitted the rack */
#define RACK_LIMITS 1 /* cards or pages outside their limits, or a memory not of RACK_MEMORY_WORDS,
                         or an old one not of RACK_OLD_MEMORY_WORDS;
                         rack_make_list, rack_mark_changes: pages of unequal length, or not 32
                         words times 1 to 64, or not one word of marks for each page */
#define RACK_UNFIT 2  /* memory and directory do not make a rack: fewer than two live cards; a page
                         whose homes are equal, or one of them not below the number of cards, or
                         dead and not the awaited card; an awaited card that is live, or not below
                         the number of cards; a live card whose area says neither 0 nor 1 for an
                         open release, or says 1 and has a faulty list (read to its end word, k
                         prices) or more than 4k + 10 steps made */

/* The price desk */
#define RACK_NO_CARD 3        /* no such card, or a dead one; rack_join, rack_desk: no such card */
#define RACK_RELEASE_OPEN 4   /* a release is open on the card */
#define RACK_NUMBER_USED 5    /* the number is at or below the card's stamp, as that of a release
                                 sent twice; at the stamp 18446744073709551615, the greatest, every
                                 number is. Place: the stamp */
#define RACK_NUMBER_AHEAD 6   /* the number is above the card's stamp + 1 */
#define RACK_FAULTY_LIST 7    /* the list breaks a rule (THE LIST OF CHANGES, below). Place: the
                                 lowest that applies of the first word that breaks one, the length
                                 if the list stops early, 512 if it is longer; rack_merge_lists: in
                                 the first list if that is faulty, else in the second */
#define RACK_WORD_IN_USE 8    /* a label of the list is in another card's open release. Place: the
                                 lowest such card */
#define RACK_NONE_OPEN 16     /* a step on a card with no release open; also after the last step */
#define RACK_LIST_TOO_LONG 19 /* rack_merge_lists: the merged list would have over 512 words;
                                 release the first list by itself then */

/* The reader */
#define RACK_NO_PAGE 9         /* no such page */
#define RACK_PAGE_IN_MOTION 10 /* the page is in an open release that already counts: fetch again
                                  once it is closed or recovered. Place: the lowest such card */
#define RACK_WRONG_BUFFER 17   /* a page buffer not of 32 words; rack_fetch_all: a buffer not of 32
                                  words for each page; a list buffer shorter than the list;
                                  rack_make_list: a list over 512 words */

/* The rack's state */
#define RACK_RECOVERY_AWAITED 11 /* a card has failed: rack_recover comes next */
#define RACK_NONE_AWAITED 12     /* a recovery, and none is awaited */
#define RACK_TWO_LIVE 13         /* a failure with two live cards */
#define RACK_CARD_LIVE 14        /* a join of a live card */
#define RACK_JOIN_WHILE_OPEN 15  /* a join while a release is open on a live card; a move is refused
                                    likewise */
#define RACK_STAMP_TOO_HIGH 20   /* rack_move_back: a stamp or a done mark on a live card is above
                                    4294967295, for which the old form has no room */

/*
** THE LIST OF CHANGES
**
** The top four bits of a word are its kind; the words of a run that are prices have none.
**
**     kind 1   a page: its number in the low 28 bits
**     kind 2   a run: its offset in bits 27 to 16, its count in bits 15 to 0; so many prices follow
**     kind 15  the end: its own index in the list in the low 28 bits
**
** The rules, and the word that refusal 7 names as the place where one is broken:
**
** - A word where no price is due is of one of these kinds: that word.
** - A page is below the pages of the rack, for rack_merge_lists below 64, and above the page before
**   it: the page word.
** - A page has at least one run: the word after the page word.
** - A run stands after a page word, not before the first: the run word.
** - A run's count is at least 1, and offset + count at most 32: the run word.
** - A run's offset is above the end, offset + count, of the run before it on the page, so that runs
**   ascend and do not touch: the run word.
** - The end word says its own index: the end word.
** - Nothing follows the end word: the word after it.
** - A list has an end word, and all prices of its runs: the length, one past the last word.
** - A list has at most 512 words: 512.
**
** The list of no change is the end word 0xF0000000 alone; a list of no words is refused at 0. Of a
** list in the memory, what stands after its end word is not read. rack_make_list makes the one list
** that names the marked words at their prices, rack_merge_lists makes one list of two; a list of k
** prices takes 4k + 11 steps.
*/

/*
** Formats a rack: all memory 0, all cards live, page p on card p mod cards and the next. The
** directory that was there is not read. Gives 0. Refusals: 1, and then the memory is kept and the
** directory is the empty one, which every call refuses.
*/
rack_answer rack_format(uint32_t *memory, size_t words, uint32_t cards, uint32_t pages,
                        rack_directory *directory);

/*
** Opens a release on a live card: its number, which is the card's stamp + 1, its desk and its
** list of list_words words. It stores the release in the card's own memory and no price yet.
** Gives 0. Refusals: 1, 2, 11, 3, 4, 5, 6, 7, 8.
*/
rack_answer rack_open(uint32_t *memory, size_t words, const rack_directory *directory,
                      uint32_t card, uint64_t number, const uint32_t desk[RACK_DESK_WORDS],
                      const uint32_t *list, size_t list_words);

/*
** Makes one step, which is one store, of the release that is open on a card. From step 2k + 9 on
** the release counts; step 4k + 11 closes it, and one more is refused with 16. Gives 0. Refusals:
** 1, 2, 11, 3, 16.
*/
rack_answer rack_step(uint32_t *memory, size_t words, const rack_directory *directory,
                      uint32_t card);

/*
** Makes steps of the release that is open on a card, up to the count or a refusal: what so many
** calls of rack_step do, for one check of the rack. Gives the number of steps made; a count of 0
** makes none, checks nothing and gives 0. Refusals: 1, 2, 11, 3, 16, of the first step that is
** refused; the steps before it, which the field made counts, stand. After the first step that can
** only be 16: the close was among the steps made. So a count of UINT32_MAX makes all the steps
** that are left, and is answered with 16 once the release is closed.
*/
rack_steps_answer rack_steps(uint32_t *memory, size_t words, const rack_directory *directory,
                             uint32_t card, uint32_t count);

/*
** Copies the 32 prices of a page into a buffer of 32 words. Gives 0. Refusals: 1, 2, 11, 9, 10,
** 17.
*/
rack_answer rack_fetch(const uint32_t *memory, size_t words, const rack_directory *directory,
                       uint32_t page, uint32_t *buffer, size_t buffer_words);

/*
** Fetches every page in one call, with one check of the rack: the 32 prices of page p go to the
** words 32 * p and on of a buffer of 32 words for each page of the rack. A page that rack_fetch
** would refuse with 10 is not copied: its words of the buffer are kept, its mark in shown is 0,
** and the call is accepted all the same. Gives 0. Refusals: 1, 2, 11, 17.
*/
rack_fetch_all_answer rack_fetch_all(const uint32_t *memory, size_t words,
                                     const rack_directory *directory, uint32_t *buffer,
                                     size_t buffer_words);

/*
** A card fails: it is marked dead, and its recovery awaited. From here to its join its memory may
** hold anything. Gives 0. Refusals: 1, 2, 11, 3, 13.
*/
rack_answer rack_fail(const uint32_t *memory, size_t words, rack_directory *directory,
                      uint32_t card);

/*
** Recovers the card that failed: releases that are open on live cards are run to their close, the
** failed card's release is completed if it counted and taken back if not, and each page gets two
** live homes. A page whose primary failed takes its secondary as primary; one that lost a home gets
** as secondary the live card, other than its primary, that is home, as primary or secondary, to the
** fewest pages at that moment, and of several the one of lowest number. Pages are taken in rising
** order, and each choice counts in the next; the other pages stay. Gives the failed card's stamp
** and its desk, which say which of its releases was the last to count: 0 and a desk of zeros if
** none ever did. Refusals: 1, 2, 12.
*/
rack_desk_answer rack_recover(uint32_t *memory, size_t words, rack_directory *directory);

/*
** A dead card joins again: its memory is made anew, with its stamp and desk. Pages do not move: it
** is home to none until a later recovery gives it some.
** Gives 0. Refusals: 1, 2, 11, 3, 14, 15.
*/
rack_answer rack_join(uint32_t *memory, size_t words, rack_directory *directory, uint32_t card);

/*
** The desk of a card's last release that is closed or recovered, live or dead; zeros if there was
** none. Gives 0 and the desk. Refusals: 1, 2, 11, 3.
*/
rack_desk_answer rack_desk(const uint32_t *memory, size_t words, const rack_directory *directory,
                           uint32_t card);

/*
** Moves a rack from an old memory, of RACK_OLD_MEMORY_WORDS(cards, pages) words, into a memory of
** RACK_MEMORY_WORDS(cards, pages), all of which it writes. The high word of each number is 0 there,
** on dead cards too. The old memory is kept. Gives 0. Refusals: 1, 2, 11, 15; of these, 1 looks at
** the length of both memories, and 2 and 15 read the one that is moved.
*/
rack_answer rack_move_in(const uint32_t *old_memory, size_t old_words,
                         const rack_directory *directory, uint32_t *memory, size_t words);

/*
** Moves a rack back into an old memory, all of which it writes. Each number loses its high word. On
** a live card that of its stamp, and those of the stamps and done marks of all eight records, must
** be 0 (refusal 20); on a dead card, and in the number of a release, they may be any. After
** rack_move_in it gives each word of the old memory again. The memory that is moved is kept. Gives
** 0. Refusals: 1, 2, 11, 15, 20; of these, 1 looks at the length of both memories, and 2, 15 and 20
** read the one that is moved.
*/
rack_answer rack_move_back(const uint32_t *memory, size_t words, const rack_directory *directory,
                           uint32_t *old_memory, size_t old_words);

/*
** Makes the list of changes of the marked words, one word of marks for each page: bit w, which is
** (uint32_t)1 << w, marks word w. A desk marks a word when it sets its price. Once a release is
** closed it clears the marks that the list was made of, and keeps those set since, which are for
** the next list. The list names exactly the marked words, at their prices on the working pages:
** also a word whose price is what it was, and not one that has a new price and no mark. Working
** pages and twins, the pages as they were fetched, hold all pages of the rack, or the first of
** them, one after the other; of the twins only the number of words counts. Laid on the twins, the
** list sets exactly the marked words. Gives the length of the list; words of the buffer past it are
** kept. Refusals: 1, 17.
*/
rack_answer rack_make_list(const uint32_t *working, size_t working_words, const uint32_t *twins,
                           size_t twins_words, const uint32_t *marks, size_t marks_words,
                           uint32_t *buffer, size_t buffer_words);

/*
** Marks the words of the working pages that differ from their twins, for a desk that keeps no
** marks. The list that rack_make_list makes with these marks turns the twins into the working
** pages. All words of marks are written. Gives 0. Refusals: 1, and then the marks are kept.
*/
rack_answer rack_mark_changes(const uint32_t *working, size_t working_words, const uint32_t *twins,
                              size_t twins_words, uint32_t *marks, size_t marks_words);

/*
** Merges two lists of changes into one, for a desk with poor radio that has several waiting. The
** effect of the merged list on any pages is the first's and then the second's: it names what either
** names, at the second's price where the second names it. A word that both name at the same price
** stays named. The merged list is the one that the rules allow for these words and prices: runs
** that touch become one. Pages go to 63, whatever a rack has: a list that names page 10 is merged,
** and a rack of 4 pages refuses it with 7 when it is opened. A rack that allows both lists allows
** the merged one. It goes out as one release, under one number: either it shows whole or not at
** all.
**
** Merge lists that were never sent. One that was sent and got no answer may be open, or count
** already: a list merged with it is then refused with 4 or 5 under its number, which does not say
** that the other list's prices have arrived.
**
** The list of no change, 0xF0000000, changes nothing on either side: the merged list is the other.
** Of three lists, the first two may be merged first or the last two: the list is the same, where
** all the merges are accepted. The buffer overlaps neither list: a third list is merged from one
** buffer into another. The two lists may be one and the same. Gives the length of the merged list;
** words of the buffer past it are kept.
**
** Refusals: 7 of the first list, 7 of the second, 19, 17. The place of 7 is one in the faulty list,
** and the answer does not say which of the two that is. To tell, merge the first with the list of
** no change: that is refused with 7 exactly if the first is faulty. 19 is answered whatever the
** buffer; 17 never with a buffer of RACK_LIST_WORDS words.
*/
rack_answer rack_merge_lists(const uint32_t *first, size_t first_words, const uint32_t *second,
                             size_t second_words, uint32_t *buffer, size_t buffer_words);

#ifdef __cplusplus
}
#endif

#endif
