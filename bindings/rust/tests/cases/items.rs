//! Items: every kind of head at each limit, strings around the end of the bytes, UTF-8, and random bytes.

use crate::compare::Compare;
use crate::encoder::{head, wide_head};
use crate::random::Random;

/// All cases of items.
pub fn run(compare: &mut Compare, random: &mut Random, rounds: usize) {
    heads(compare);
    strings(compare);
    utf8(compare, random, rounds);
    random_bytes(compare, random, rounds);
}

/// Each first byte, each width and the numbers around each limit, whole and cut.
fn heads(compare: &mut Compare) {
    for first in 0..=255 {
        compare.item_read(&[first], 0);
        compare.item_read(
            &[first, 0x61, 0x62, 0x63, 0x64, 0x65, 0x66, 0x67, 0x68, 0x69],
            0,
        );
    }
    for limit in [2, 24, 1 << 8, 1 << 16, 1 << 31, 1 << 32, 1 << 63, 0] {
        for past in 0..5 {
            let number = u64::wrapping_add(limit, past).wrapping_sub(2);
            for major in 0..8 {
                for width in 0..4 {
                    cut_and_lengthened(compare, &wide_head(major, number, width));
                }
                cut_and_lengthened(compare, &head(major, number));
            }
        }
    }
}

/// The bytes cut to each length, and with bytes after them.
fn cut_and_lengthened(compare: &mut Compare, bytes: &[u8]) {
    for length in 0..=bytes.len() {
        compare.item_read(&bytes[..length], 0);
    }
    compare.item_read(&[bytes, &[0x61; 40]].concat(), 0);
}

/// Strings whose ends lie around the end of the bytes, at several places.
fn strings(compare: &mut Compare) {
    for major in [2, 3] {
        for length in (0..30usize).chain([255, 256, 257, 65535, 65536]) {
            for room in [length, length + 1, length.saturating_sub(1)] {
                for before in [0, 1, 7] {
                    let mut bytes = vec![0; before];
                    bytes.extend(head(major, length as u64));
                    bytes.extend(vec![b'x'; room]);
                    compare.item_read(&bytes, before as u64);
                    compare.item_read(&bytes, before as u64 + 1);
                }
            }
        }
    }
}

/// Texts of all pairs of bytes, of the limits of longer sequences, and of mixed characters with a fault at any place.
fn utf8(compare: &mut Compare, random: &mut Random, rounds: usize) {
    for first in 0..=255 {
        text(compare, &[first]);
        for second in 0..=255 {
            text(compare, &[first, second]);
        }
    }
    let limits = [
        0x00, 0x41, 0x7f, 0x80, 0x81, 0x8f, 0x90, 0x9f, 0xa0, 0xbf, 0xc0, 0xff,
    ];
    for first in 0xdf..=0xff {
        for second in limits {
            for third in limits {
                text(compare, &[first, second, third]);
                for fourth in limits {
                    text(compare, &[first, second, third, fourth]);
                }
            }
        }
    }
    for _ in 0..rounds {
        let mut content: Vec<u8> = (0..random.below(20))
            .flat_map(|_| character(random))
            .collect();
        text(compare, &content);
        if !content.is_empty() {
            let at = random.below(content.len());
            content[at] = random.number() as u8;
            text(compare, &content);
        }
    }
}

/// The encoding of a character of one to four bytes.
fn character(random: &mut Random) -> Vec<u8> {
    let characters = [
        'a',
        'z',
        '\u{7f}',
        '\u{80}',
        'ü',
        '\u{7ff}',
        '\u{800}',
        '\u{d7ff}',
        '\u{ffff}',
        '\u{10000}',
        '\u{10ffff}',
    ];
    random.pick(&characters).to_string().into_bytes()
}

/// A text with the content.
fn text(compare: &mut Compare, content: &[u8]) {
    compare.item_read(&[&head(3, content.len() as u64), content].concat(), 0);
}

/// Random bytes, of which many are heads of short items, at random places.
fn random_bytes(compare: &mut Compare, random: &mut Random, rounds: usize) {
    for _ in 0..4 * rounds {
        let length = random.below(60);
        let mut bytes = random.bytes(length);
        for byte in &mut bytes {
            if random.once_in(3) {
                *byte = *random.pick(&[
                    0x17, 0x18, 0x41, 0x58, 0x61, 0x63, 0x78, 0x80, 0x98, 0xa1, 0xb8,
                ]);
            }
        }
        for place in [
            random.below(70) as u64,
            random.below(10) as u64,
            random.edge(),
        ] {
            compare.item_read(&bytes, place);
        }
    }
}
