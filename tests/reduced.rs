//! A command stream on which two programs differ, cut down and in words.

use std::time::{Duration, Instant};

/// The time for cutting a stream down.
const SHRINKING: Duration = Duration::from_secs(20);

/// Without every stretch of calls that the difference does not need, long stretches first, as far as the time goes.
pub fn shrunken<T: Clone>(mut kept: Vec<T>, differ: impl Fn(&[T]) -> bool) -> Vec<T> {
    let until = Instant::now() + SHRINKING;
    let mut size = kept.len() / 2;
    while size > 0 {
        let mut at = 0;
        while at + size <= kept.len() {
            if Instant::now() > until {
                return kept;
            }
            let mut fewer = kept.clone();
            fewer.drain(at..at + size);
            if differ(&fewer) {
                kept = fewer;
            } else {
                at += size;
            }
        }
        size /= 2;
    }
    kept
}

/// A command in words: its byte, then numbers and the bits of floats.
pub fn words(bytes: &[u8]) -> String {
    let whole = matches!((bytes[0], bytes.len()), (1, 38) | (2, 61) | (3, 25) | (4, 39) | (5, 1));
    if !whole {
        return format!("{bytes:02x?}");
    }
    let u32_at = |i: usize| u32::from_le_bytes(bytes[i..i + 4].try_into().unwrap());
    let floats = |from: usize, end: usize| {
        let each = (from..end).step_by(4).map(|i| f32::from_bits(u32_at(i)));
        each.map(|x| format!(" {x:?}")).collect::<String>()
    };
    if bytes[0] == 5 {
        return "05".to_string();
    }
    if bytes[0] == 1 || bytes[0] == 4 {
        let counts: String = (2..22).step_by(4).map(|i| format!(" {}", u32_at(i))).collect();
        let carry = bytes.get(38).map_or(String::new(), |c| format!(" carry {c}"));
        return format!("{:02x} {}{counts}{}{carry}", bytes[0], bytes[1], floats(22, 38));
    }
    let index = u64::from_le_bytes(bytes[1..9].try_into().unwrap());
    format!("{:02x} {index}{}", bytes[0], floats(9, bytes.len()))
}
