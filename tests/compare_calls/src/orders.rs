//! Cards fail in every order, each recovered, on racks of 4 to 8 cards until two are live.

use crate::call::Call;
use crate::lists;
use crate::with_book::WithBook;
use random::Random;

/// Cards and pages: few pages where there are many orders, 20160 of them on 8 cards.
const SIZES: [(u32, u32); 8] = [(4, 3), (4, 64), (5, 3), (5, 64), (6, 3), (6, 64), (7, 13), (8, 13)];

/// Makes all calls, and says how many.
pub fn compare(random: &mut Random) -> Result<u64, String> {
    let calls = SIZES.into_iter().map(|(cards, pages)| {
        let list = lists::of_each_page(random, pages);
        WithBook::released(cards, pages, list)
            .and_then(|both| each_fails(&both))
            .map_err(|error| format!("every order, {cards} cards, {pages} pages: {error}"))
    });
    calls.sum()
}

/// Each live card fails, then each of those that are left.
fn each_fails(both: &WithBook) -> Result<u64, String> {
    match both.live_cards() {
        live if live.len() > 2 => live.into_iter().map(|card| fails(both.clone(), card)).sum(),
        _ => Ok(0),
    }
}

fn fails(mut both: WithBook, card: u32) -> Result<u64, String> {
    let buffer = vec![5; 32 * both.racks.directory.pages as usize];
    let calls = [Call::Fail { card }, Call::Recover, Call::FetchAll { buffer }];
    calls
        .iter()
        .try_for_each(|call| both.accepted(call).map(drop))
        .and_then(|()| each_fails(&both))
        .map(|later| later + calls.len() as u64)
        .map_err(|error| format!("card {card} fails: {error}"))
}
