//! Bytes as text: hexadecimal, with `*n` behind a part that comes n times; `@a+n`
//! for n bytes, from offset a on, of those before; and `same` for all of those.

use std::collections::HashMap;

/// The longest part that is looked for as one that repeats.
const PART_LIMIT: usize = 1000;
/// Characters that a repetition must save.
const LEAST_SAVING: usize = 8;
const MUCH_SAVED: usize = 24;
/// The fewest bytes that are copied.
const LEAST_COPY: usize = 12;
/// For all bytes before.
const SAME: &str = "same";

fn hex(bytes: &[u8]) -> String {
    bytes.iter().map(|byte| format!("{byte:02x}")).collect()
}

/// The parts of `bytes`: what is copied from `before`, what repeats, and what
/// stands between.
pub fn encode(bytes: &[u8], before: &[u8]) -> Vec<String> {
    if bytes == before && !bytes.is_empty() {
        return vec![SAME.into()];
    }
    let copies = Copies::of(before);
    let mut parts = Vec::new();
    let (mut at, mut plain) = (0, 0);
    while at < bytes.len() {
        let Some((part, length)) = part_at(&bytes[at..], &copies) else {
            at += 1;
            continue;
        };
        if plain < at {
            parts.push(hex(&bytes[plain..at]));
        }
        parts.push(part);
        at += length;
        plain = at;
    }
    if plain < at {
        parts.push(hex(&bytes[plain..]));
    }
    parts
}

/// The part at the front, if it need not be written out, and how many bytes it
/// stands for: what is copied, unless what repeats there is longer.
fn part_at(bytes: &[u8], copies: &Copies) -> Option<(String, usize)> {
    let repeated = repetition(bytes)
        .map(|(length, times)| (format!("{}*{times}", hex(&bytes[..length])), length * times));
    let copied = copies.at_front(bytes).map(|(from, length)| (format!("@{from}+{length}"), length));
    match (repeated, copied) {
        (Some(repeated), Some(copied)) if repeated.1 > copied.1 => Some(repeated),
        (repeated, copied) => copied.or(repeated),
    }
}

/// Bytes to copy from, and where each sequence of [`LEAST_COPY`] of them stands first.
struct Copies<'a> {
    from: &'a [u8],
    first: HashMap<&'a [u8], usize>,
}

impl<'a> Copies<'a> {
    fn of(from: &'a [u8]) -> Self {
        let mut first = HashMap::new();
        for (at, bytes) in from.windows(LEAST_COPY).enumerate() {
            first.entry(bytes).or_insert(at);
        }
        Self { from, first }
    }

    /// Where the front of `bytes` stands, and how far it goes on there.
    fn at_front(&self, bytes: &[u8]) -> Option<(usize, usize)> {
        let from = *self.first.get(bytes.get(..LEAST_COPY)?)?;
        let same = self.from[from..].iter().zip(bytes).take_while(|(a, b)| a == b).count();
        Some((from, same))
    }
}

/// The length of the part at the front and how often it comes there: the
/// shortest part that saves much, as is readable, else the one that saves most.
fn repetition(bytes: &[u8]) -> Option<(usize, usize)> {
    let saving = |&(length, times): &(usize, usize)| 2 * length * (times - 1);
    let found = || {
        (1..=PART_LIMIT.min(bytes.len() / 2))
            .map(|length| {
                let same = bytes.iter().zip(&bytes[length..]).take_while(|(a, b)| a == b).count();
                (length, 1 + same / length)
            })
            .filter(|found| saving(found) >= LEAST_SAVING)
    };
    found().find(|found| saving(found) >= MUCH_SAVED).or_else(|| found().max_by_key(saving))
}

/// The bytes of text made by [`encode`], or by hand: blanks may stand anywhere
/// between parts.
pub fn decode(text: &str, before: &[u8]) -> Result<Vec<u8>, String> {
    let mut bytes = Vec::new();
    for part in text.split_whitespace() {
        let of_part = decode_part(part, before).filter(|bytes| !bytes.is_empty());
        bytes.extend(of_part.ok_or_else(|| format!("no bytes: {part}"))?);
    }
    Ok(bytes)
}

fn decode_part(part: &str, before: &[u8]) -> Option<Vec<u8>> {
    if part == SAME {
        return Some(before.to_vec());
    }
    if let Some(range) = part.strip_prefix('@') {
        let (from, length) = range.split_once('+')?;
        let from: usize = from.parse().ok()?;
        return Some(before.get(from..from.checked_add(length.parse().ok()?)?)?.to_vec());
    }
    let (digits, times) = part.split_once('*').unwrap_or((part, "1"));
    Some(decode_hex(digits)?.repeat(times.parse().ok()?))
}

fn decode_hex(digits: &str) -> Option<Vec<u8>> {
    let nibbles: Vec<u8> =
        digits.chars().map(|c| c.to_digit(16).map(|digit| digit as u8)).collect::<Option<_>>()?;
    nibbles
        .len()
        .is_multiple_of(2)
        .then(|| nibbles.chunks_exact(2).map(|pair| pair[0] << 4 | pair[1]).collect())
}

#[cfg(test)]
mod tests {
    use super::{decode, encode};

    #[test]
    fn text_and_back() {
        let mut bytes: Vec<u8> = (0..200).collect();
        bytes.extend([7; 100]);
        bytes.extend([1, 2, 3].repeat(50));
        let parts = encode(&bytes, &[]);
        assert_eq!(parts[1..], ["07*100".to_string(), "010203*50".to_string()]);
        assert_eq!(decode(&parts.join(" "), &[]), Ok(bytes));
    }

    #[test]
    fn copied_and_back() {
        let before: Vec<u8> = (0..200).collect();
        let bytes = [&before[3..80], &[1; 300], &before[70..]].concat();
        let parts = encode(&bytes, &before);
        assert_eq!(parts, ["@3+77", "01*300", "@70+130"]);
        assert_eq!(decode(&parts.join(" "), &before), Ok(bytes));
    }

    #[test]
    fn what_is_no_text() {
        for text in ["0", "0g", "00*", "00*x", "*2", "*2*", "@", "@0", "@+1", "@1+2", "@0+2+0"] {
            assert!(decode(text, &[7, 8]).is_err(), "{text}");
        }
        assert!(decode("same", &[]).is_err());
        assert_eq!(decode("  ", &[]), Ok(Vec::new()));
        assert_eq!(encode(&[], &[]), Vec::<String>::new());
        assert_eq!(decode("same @1+1 09*2", &[7, 8]), Ok(vec![7, 8, 8, 9, 9]));
    }
}
