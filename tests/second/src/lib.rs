//! The price rack: pages on two cards, released in two phases.
//!
//! A second implementation, written from document 01 alone by a hand that had
//! not read the Rattle source, but for the calls with the directory lent, which
//! came later from one that had: `by_reference`, `by_value`, and what these
//! needed in `calls`, `directory` and `recovery`. The numbers of 64 bits and the
//! mover are from document 02, "Stamps that outlast the shop", the choice of a new home
//! is from "New homes shared evenly", the list maker that takes marks is from "A price set
//! again to what it was", and the merging of two lists is from "Two lists made one", all
//! again by hands that had not read the Rattle source. Comments cite document 01 by the
//! titles of its sections and document 02 by those of its requests.

#![forbid(unsafe_code)]

mod answer;
pub mod book;
pub mod by_reference;
mod by_value;
mod calls;
mod checks;
mod directory;
pub mod layout;
mod list;
mod merge;
pub mod mover;
pub mod old_layout;
mod record;
mod recovery;
pub mod refusals;
mod release;
mod shelfrun;

pub use answer::Answer;
pub use by_value::{
    ask_desk, fail_card, fetch_all, fetch_page, format_rack, join_card, make_step, make_steps, open_release, recover,
};
pub use directory::{Directory, Status};
pub use list::{check_list, make_list, mark_changes, prices, Price};
pub use merge::merge_lists;
pub use shelfrun::shelfrun;
