//! The refusals by number, and who caused them. The header says when each is answered, and which has a place.

pub const ACCEPTED: u32 = 0;

// whoever fitted the rack
pub const LIMITS: u32 = 1;
pub const UNFIT: u32 = 2;

// the price desk
pub const NO_CARD: u32 = 3;
pub const RELEASE_OPEN: u32 = 4;
pub const NUMBER_USED: u32 = 5;
pub const NUMBER_AHEAD: u32 = 6;
pub const FAULTY_LIST: u32 = 7;
pub const WORD_IN_USE: u32 = 8;
pub const NONE_OPEN: u32 = 16;
pub const LIST_TOO_LONG: u32 = 19;

// the reader
pub const NO_PAGE: u32 = 9;
pub const PAGE_IN_MOTION: u32 = 10;
pub const WRONG_BUFFER: u32 = 17;

// the rack's state
pub const RECOVERY_AWAITED: u32 = 11;
pub const NONE_AWAITED: u32 = 12;
pub const TWO_LIVE: u32 = 13;
pub const CARD_LIVE: u32 = 14;
pub const JOIN_WHILE_OPEN: u32 = 15;
pub const STAMP_TOO_HIGH: u32 = 20;
