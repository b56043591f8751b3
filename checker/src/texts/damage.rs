//! Lines and texts that are spoilt.

use crate::frames::{encode, lines, Frame};
use crate::random::Random;

/// A line with some character that is no digit, too many or too few, or none at all.
pub fn digits(random: &mut Random, line: &[u8]) -> Vec<u8> {
    let mut line = line.to_vec();
    match random.below(8) {
        0 => line.clear(),
        1 => line.truncate(line.len() - 1),
        2 => line.push(b'0'),
        3 => line.push(b'\r'),
        4 => line.insert(0, b' '),
        5 => line.make_ascii_lowercase(),
        6 => line[0] = random.pick(b"GOo:/@`gaf \t\0\x80\xFF"),
        _ => {
            let place = random.index(line.len());
            line[place] = other_than_feed(random);
        }
    }
    line
}

/// The digits of bytes that are about a frame: of an unknown kind or rule, longer or shorter.
pub fn frame(random: &mut Random, frame: &Frame) -> Vec<u8> {
    let mut bytes = frame.bytes();
    match random.below(8) {
        0 => bytes[0] = random.pick(&[0, 10, 11, 0x10, 0x80, 255]),
        1 => bytes = vec![7, random.pick(&[3, 4, 0x10, 255])],
        2 => {
            bytes.pop();
            if bytes.is_empty() {
                bytes.push(0);
            }
        }
        3 => bytes.push(random.number() as u8),
        4 => bytes.truncate(random.count(1..=bytes.len())),
        5 => bytes.extend(frame.bytes()),
        6 => bytes.resize(random.pick(&[2_049, 2_050, 2_051, 4_000]), 0),
        _ => {
            let place = random.index(bytes.len());
            bytes[place] = random.number() as u8;
        }
    }
    encode(&bytes)
}

/// The text with some of its lines or characters changed, in any way.
pub fn text(random: &mut Random, bytes: Vec<u8>) -> Vec<u8> {
    let mut lines: Vec<Vec<u8>> = lines(&bytes).into_iter().map(<[u8]>::to_vec).collect();
    for _ in 0..random.count(1..=6) {
        if lines.is_empty() {
            break;
        }
        let place = random.index(lines.len());
        match random.below(8) {
            0 => {
                lines.remove(place);
            }
            1 => lines.insert(place, lines[place].clone()),
            2 => {
                let other = random.index(lines.len());
                lines.swap(place, other);
            }
            3 if !lines[place].is_empty() => lines[place] = digits(random, &lines[place].clone()),
            4 => lines.insert(place, Vec::new()),
            5 => {
                let kept = random.index(lines[place].len() + 1);
                lines[place].truncate(kept);
            }
            _ if !lines[place].is_empty() => {
                let character = random.index(lines[place].len());
                lines[place][character] = random.pick(b"0123456789ABCDEF");
            }
            _ => {}
        }
    }
    let mut text = lines.join(&b'\n');
    text.push(b'\n');
    text
}

fn other_than_feed(random: &mut Random) -> u8 {
    match random.number() as u8 {
        b'\n' => b'\r',
        byte => byte,
    }
}
