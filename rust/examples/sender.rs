//! A sender: fetches every page of a rack and prints its labels as units and cents. Between its
//! rounds a price desk releases changes, and a card fails in the middle of a release.

use bandsawpink::{make_list, mark_changes, Desk, Page, Rack, Refusal, PAGE_WORDS};

/// What the sender has radioed, and so what the shelf shows.
struct Sender {
    shelf: Vec<u32>,
}

impl Sender {
    /// One round: each page that was fetched is radioed; a page in motion waits for the next round.
    fn send_all(&mut self, rack: &Rack) -> Result<(), Refusal> {
        for (page, prices) in rack.fetch_all()?.iter().enumerate() {
            match prices {
                Some(prices) => self.send(page, prices),
                None => println!("page {page} is in motion and waits"),
            }
        }
        Ok(())
    }

    fn send(&mut self, page: usize, prices: &Page) {
        for (word, price) in prices.iter().enumerate() {
            let label = page * PAGE_WORDS + word;
            if self.shelf[label] != *price {
                self.shelf[label] = *price;
                println!("label {label}: {}.{:02}", price / 100, price % 100);
            }
        }
    }

    /// The list of what is new on the working pages.
    fn list(&self, working: &[u32]) -> Result<Vec<u32>, Refusal> {
        let marks = mark_changes(working, &self.shelf)?;
        make_list(working, &self.shelf, &marks)
    }
}

fn main() -> Result<(), Refusal> {
    let mut rack = Rack::format(3, 4)?;
    let mut sender = Sender { shelf: vec![0; rack.pages() as usize * PAGE_WORDS] };
    let desk: Desk = [1; 8];

    let mut working = sender.shelf.clone();
    working[34] = 250;
    working[35] = 199;
    working[70] = 1099;
    let list = sender.list(&working)?;
    println!("released in {} steps", rack.release(1, 1, &desk, &list)?);
    sender.send_all(&rack)?;

    let mut cheaper = sender.shelf.clone();
    cheaper[34] = 225;
    cheaper[70] = 989;
    let list = sender.list(&cheaper)?;
    rack.open(1, 2, &desk, &list)?;
    rack.steps(1, 14)?;
    sender.send_all(&rack)?;
    rack.fail(1)?;
    println!("card 1 recovered: release {}", rack.recover()?.stamp);
    sender.send_all(&rack)?;

    rack.join(1)?;
    match rack.release(1, 2, &desk, &list) {
        Err(refusal) => println!("refusal {}, place {}: {refusal}", refusal.number(), refusal.place()),
        Ok(_) => println!("released twice"),
    }
    sender.send_all(&rack)
}
