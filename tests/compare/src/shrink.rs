//! The shortest input found that still shows a difference: runs of lines are left out, long ones
//! first, then runs of bytes of what is left.

pub fn shortest(input: &[u8], differs: impl Fn(&[u8]) -> bool) -> Vec<u8> {
    let lines: Vec<&[u8]> = input.split_inclusive(|&byte| byte == b'\n').collect();
    let lines = fewest(lines, |lines| differs(&lines.concat()));
    let bytes = lines.concat();
    match bytes.len() {
        0..=400 => fewest(bytes, |bytes| differs(bytes)),
        _ => bytes,
    }
}

/// Leaves out runs of items, half of them at first and one by one at last, as long as `holds`.
fn fewest<T: Clone>(mut items: Vec<T>, holds: impl Fn(&[T]) -> bool) -> Vec<T> {
    let mut run = items.len().div_ceil(2);
    while run > 0 {
        let mut at = 0;
        while at < items.len() {
            let mut fewer = items.clone();
            fewer.drain(at..(at + run).min(items.len()));
            match holds(&fewer) {
                true => items = fewer,
                false => at += run,
            }
        }
        run /= 2;
    }
    items
}
