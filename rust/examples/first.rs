use bandsawpink::{make_list, Rack, Refusal};

fn main() -> Result<(), Refusal> {
    let mut rack = Rack::format(3, 4)?;
    let twins = [0; 4 * 32];
    let mut working = twins;
    working[34] = 250; // two new prices, in cents
    working[35] = 199;
    let marks = [0, 1 << 2 | 1 << 3, 0, 0]; // of page 1, words 2 and 3 are to be released
    let list = make_list(&working, &twins, &marks)?;
    rack.open(1, 1, &[7; 8], &list)?;
    rack.steps(1, 13)?;

    rack.fail(1)?; // between two stores, once the release counts
    let found = rack.recover()?;
    println!("card 1: release {} of desk {}", found.stamp, found.desk[0]);
    for (word, price) in rack.fetch(1)?.iter().enumerate() {
        if *price != 0 {
            println!("label {}: {}.{:02}", 32 + word, price / 100, price % 100);
        }
    }

    rack.join(1)?;
    if let Err(refusal) = rack.release(1, 1, &[7; 8], &list) {
        println!("sent again: {refusal}");
    }
    Ok(())
}
