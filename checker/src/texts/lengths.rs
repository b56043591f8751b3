//! Texts that are empty, about as long as a text may be, or longer.

use super::script::Script;
use super::tours;
use crate::random::Random;

const LONGEST: usize = 65_536;

pub fn text(random: &mut Random) -> Vec<u8> {
    match random.below(8) {
        0 => Vec::new(),
        1 => random.pick(&[&b"\n"[..], b"\n\n\n", b"08", b"0", b"\r\n", b"01", b"\n08\n"]).to_vec(),
        2 => whole(random, LONGEST),
        3 => whole(random, LONGEST - 1),
        4 | 5 => whole(random, LONGEST + 1),
        6 => {
            let longer = random.count(1..=4_000);
            whole(random, LONGEST + longer)
        }
        _ => whole(random, 4 * LONGEST),
    }
}

/// A text of so many bytes, with a design before or after what fills it up.
fn whole(random: &mut Random, length: usize) -> Vec<u8> {
    let mut script = Script::new(random);
    if random.one_in(2) {
        tours::design(random, &mut script);
    }
    let mut text = script.end();
    text.truncate(length);
    let filling: &[u8] = random.pick(&[&b"\n"[..], b"08", b"08\n", b"\r", b"0\n"]);
    let fill = filling.iter().copied().cycle().take(length - text.len());
    if random.one_in(2) {
        text.extend(fill);
        text
    } else {
        fill.chain(text).collect()
    }
}
