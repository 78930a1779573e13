//! The layout of document 01's section "Cards, pages, memory", row by row, in the old
//! form and with document 02's numbers of 64 bits: the other tests take both from the
//! library.

use second::layout::*;
use second::old_layout;

#[test]
fn the_table_of_an_area() {
    assert_eq!((OWN_STAMP, OWN_DESK, NUMBER_WORDS), (0, 2, 2));
    assert_eq!((OPEN, STEPS, NUMBER, DESK), (10, 11, 12, 14));
    assert_eq!((record_at(0), record_at(1), record_at(3), record_at(7)), (22, 42, 82, 162));
    assert_eq!((LIST, PAGES, LIST_WORDS), (182, 694, 512));
    assert_eq!((tentative_at(0), committed_at(0), tentative_at(3), committed_at(3)), (694, 726, 886, 918));
    assert_eq!(RELEASE, [10..22, 182..694]);
}

#[test]
fn a_record_has_20_words() {
    assert_eq!((RECORD_WORDS, DESK_WORDS), (20, 8));
    assert_eq!((stamp_at(2), done_mark_at(2)), (62, 64));
    assert_eq!((desk_of_number_at(2, 4), desk_of_number_at(2, 5)), (66, 74));
    assert_eq!((EVEN_DESK, ODD_DESK), (4, 12));
}

#[test]
fn numbers_and_desks_are_words_one_after_the_other() {
    let mut area = [7; 22];
    put_number(&mut area, NUMBER, 41 + (5 << 32));
    put_desk(&mut area, DESK, &[1, 2, 3, 4, 5, 6, 7, 8]);
    assert_eq!(area[10..], [7, 7, 41, 5, 1, 2, 3, 4, 5, 6, 7, 8]);
    assert_eq!((number_at(&area, NUMBER), desk_at(&area, DESK)), (41 + (5 << 32), [1, 2, 3, 4, 5, 6, 7, 8]));
}

#[test]
fn a_number_has_its_low_word_first() {
    let rows: [(Number, [u32; 2]); 6] = [
        (0, [0, 0]),
        (4_294_967_295, [4_294_967_295, 0]),
        (4_294_967_296, [0, 1]),
        (4_294_967_297, [1, 1]),
        (1 << 63, [0, 1 << 31]),
        (18_446_744_073_709_551_615, [4_294_967_295, 4_294_967_295]),
    ];
    for (number, words) in rows {
        let mut area = [7; 4];
        put_number(&mut area, 1, number);
        assert_eq!(area, [7, words[0], words[1], 7]);
        assert_eq!((number_at(&area, 1), [low_word(number), high_word(number)]), (number, words));
    }
}

/// An own stamp with one of its words past the memory's end is none.
#[test]
fn an_own_stamp_has_both_words_or_is_none() {
    let mut memory = vec![0; area_words(1) + 2];
    put_number(&mut memory, area_words(1), 6 << 32);
    assert_eq!(own_stamp(&memory, 1, 1), Some(6 << 32));
    memory.pop();
    assert_eq!(own_stamp(&memory, 1, 1), None);
    assert_eq!((own_stamp(&memory, 1, 2), own_stamp(&memory, u32::MAX, 7)), (None, None));
}

#[test]
fn areas_stand_one_after_the_other() {
    assert_eq!((area_words(1), area_words(4), area_words(64)), (758, 950, 4790));
    assert_eq!((area_at(4, 0), area_at(4, 1), area_at(4, 2)), (0, 950, 1900));
    assert_eq!((memory_words(3, 4), memory_words(8, 64)), (Some(2850), Some(38_320)));
}

#[test]
fn the_table_of_an_old_area() {
    use old_layout::*;
    assert_eq!((OWN_STAMP, OWN_DESK), (0, 1));
    assert_eq!((OPEN, STEPS, NUMBER, DESK), (9, 10, 11, 12));
    assert_eq!((RECORDS, RECORD_WORDS), (20, 18));
    assert_eq!((record_at(0), record_at(3), record_at(7)), (20, 74, 146));
    assert_eq!((STAMP, DONE_MARK, EVEN_DESK, ODD_DESK), (0, 1, 2, 10));
    assert_eq!((LIST, PAGES), (164, 676));
    assert_eq!((area_words(1), area_words(4), area_words(64)), (740, 932, 4772));
    assert_eq!((memory_words(3, 4), memory_words(8, 64)), (Some(2796), Some(38_176)));
    assert_eq!(
        (memory_words(2, 4), memory_words(9, 4), memory_words(3, 0), memory_words(3, 65)),
        (None, None, None, None)
    );
}
