//! A rack in the old form, whose numbers have one word. Card 1 has used the last of them: the rack is moved to the form
//! of two words, where card 1 takes the next. Before that it can be moved back, after it no more.

use bandsawpink::{old_memory_words, Directory, Rack, Refusal};

/// In the place of a file: a rack without prices, and the number 4294967295 on card 1 and in its record on card 2.
fn load() -> Result<(Vec<u32>, Directory), Refusal> {
    let (area, mut old) = (old_memory_words(1, 4), vec![0; old_memory_words(3, 4)]);
    let record = 2 * area + 20 + 18;
    for at in [area, record, record + 1] {
        old[at] = u32::MAX;
    }
    Ok((old, Rack::format(3, 4)?.directory().clone()))
}

fn main() -> Result<(), Refusal> {
    let (old, directory) = load()?;
    let mut rack = Rack::from_old(&old, directory)?;
    println!("the same back: {}", rack.to_old()? == old);

    let (number, list) = (4_294_967_296, [0x1000_0001, 0x2002_0001, 250, 0xF000_0003]);
    let steps = rack.release(1, number, &[7; 8], &list)?;
    println!("release {number}: {steps} steps, label 34 at {} cents", rack.fetch(1)?[2]);
    if let Err(refusal) = rack.to_old() {
        println!("back: refused with {}: {refusal}", refusal.number());
    }
    Ok(())
}
