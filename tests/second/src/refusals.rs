//! The refusals by number ("What the rack refuses, by who caused it").

// "Whoever fitted it".

/// "Cards or pages outside their limits, or a memory not of the stated length; in
/// list work, lent pages of unequal length or not 32 words times 1 to 64." And "one
/// mark word per page, or 1" (document 02, "A price set again to what it was").
pub const OUTSIDE_LIMITS: u32 = 1;
/// "Fewer than two live cards, homes equal, not below the number of cards, or dead
/// and not the awaited card, an awaited card that is live or does not exist, a live
/// card's word 9 above 1, or an open release whose list is faulty or whose steps
/// exceed 4k + 10." In the form of `layout` that is word 10.
pub const UNSOUND_RACK: u32 = 2;

// "The price desk".

/// "No such card, or dead (a join or desk question: no such card)."
pub const NO_SUCH_CARD: u32 = 3;
/// "A release is open on it."
pub const RELEASE_OPEN: u32 = 4;
/// "Number at or below its stamp (place: the stamp)."
pub const NUMBER_TOO_LOW: u32 = 5;
/// "Number above stamp + 1."
pub const NUMBER_TOO_HIGH: u32 = 6;
/// "Faulty list"; `list` finds the place.
pub const FAULTY_LIST: u32 = 7;
/// "A word of the list also stands in another card's open release (place: lowest
/// such card)."
pub const WORD_IN_OTHER_RELEASE: u32 = 8;
/// "A step with no release open."
pub const NO_RELEASE_OPEN: u32 = 16;
/// "A result over 512 words" (document 02, "Two lists made one").
pub const LIST_TOO_LONG: u32 = 19;

// "The reader".

/// "No such page."
pub const NO_SUCH_PAGE: u32 = 9;
/// "The page is in an open release that already counts (place: lowest such card)."
pub const PAGE_IN_COUNTING_RELEASE: u32 = 10;
/// "A page buffer not 32 words, or a list buffer shorter than the list, or a list
/// over 512 words."
pub const WRONG_BUFFER: u32 = 17;

// "The rack's state".

/// "Recovery awaited."
pub const RECOVERY_AWAITED: u32 = 11;
/// "Recovery called for with none awaited."
pub const NONE_AWAITED: u32 = 12;
/// "A failure with two live."
pub const TWO_LIVE: u32 = 13;
/// "Joining a live card."
pub const JOINING_LIVE_CARD: u32 = 14;
/// "Joining with a release open"; moving with one open too.
pub const JOINING_WITH_RELEASE_OPEN: u32 = 15;
/// "An unreadable line (the program below)."
pub const UNREADABLE_LINE: u32 = 18;
/// "A stamp or done mark on a live card's area is above 4294967295 on the way back"
/// (document 02, "Stamps that outlast the shop").
pub const STAMP_TOO_HIGH: u32 = 20;
