//! Damaged texts.

use crate::rng::Rng;

const MAX_TEXT: usize = 65_536;

pub const DAMAGES: [(Damage, &str); 16] = [
    (Damage::Cut, "cut"),
    (Damage::CutAtLine, "cut after a line"),
    (Damage::ChangeByte, "byte changed"),
    (Damage::InsertByte, "byte inserted"),
    (Damage::RemoveByte, "byte removed"),
    (Damage::MoveLine, "line moved"),
    (Damage::RepeatLine, "line repeated"),
    (Damage::RemoveLine, "line removed"),
    (Damage::SwapFields, "fields exchanged"),
    (Damage::Number, "number changed"),
    (Damage::HeadNumber, "number of the first line changed"),
    (Damage::Neighbour, "number changed by one"),
    (Damage::TooManyDigits, "number too long"),
    (Damage::LeftOver, "something left over"),
    (Damage::AsLongAsMayBe, "text as long as may be"),
    (Damage::TooLong, "text too long"),
];

#[derive(Clone, Copy, Debug, PartialEq, Eq)]
pub enum Damage {
    Cut,
    CutAtLine,
    ChangeByte,
    InsertByte,
    RemoveByte,
    MoveLine,
    RepeatLine,
    RemoveLine,
    SwapFields,
    Number,
    HeadNumber,
    Neighbour,
    TooManyDigits,
    LeftOver,
    AsLongAsMayBe,
    TooLong,
}

const BYTES: &[u8] = b"0123456789,,,\n\n\r -+.JOBPLANTCDES\0\x80\xff/:";

const NUMBERS: [&str; 41] = [
    "0",
    "1",
    "2",
    "3",
    "7",
    "8",
    "9",
    "14",
    "15",
    "16",
    "17",
    "254",
    "255",
    "256",
    "257",
    "1023",
    "1024",
    "1025",
    "4095",
    "4096",
    "65536",
    "999999",
    "1000000",
    "1000001",
    "4294967294",
    "4294967295",
    "4294967296",
    "4294967297",
    "9999999999",
    "10000000000",
    "18446744073709551616",
    "00",
    "01",
    "",
    "-1",
    "+1",
    " 1",
    "1 ",
    "x",
    "1.0",
    "-",
];

impl Damage {
    pub fn random(rng: &mut Rng) -> (Damage, &'static str) {
        // The long texts cost most.
        if rng.one_in(40) {
            rng.pick(&DAMAGES[14..])
        } else {
            rng.pick(&DAMAGES[..14])
        }
    }

    /// Does the damage to `text`; what cannot be done is left out.
    pub fn apply(self, rng: &mut Rng, text: &mut Vec<u8>) {
        match self {
            Damage::Cut => text.truncate(rng.below(text.len() + 1)),
            Damage::CutAtLine => {
                let lines = lines(text);
                let kept = rng.below(lines.len() + 1);
                *text = lines[..kept].concat();
            }
            Damage::ChangeByte => {
                if !text.is_empty() {
                    let place = rng.below(text.len());
                    text[place] = byte(rng);
                }
            }
            Damage::InsertByte => {
                let place = rng.below(text.len() + 1);
                let byte = byte(rng);
                text.insert(place, byte);
            }
            Damage::RemoveByte => {
                if !text.is_empty() {
                    text.remove(rng.below(text.len()));
                }
            }
            Damage::MoveLine | Damage::RepeatLine | Damage::RemoveLine => {
                let mut lines = lines(text);
                if lines.is_empty() {
                    return;
                }
                let line = lines[rng.below(lines.len())].clone();
                if self != Damage::RepeatLine {
                    let place = lines.iter().position(|other| *other == line);
                    lines.remove(place.expect("a line of the text"));
                }
                if self != Damage::RemoveLine {
                    let place = rng.below(lines.len() + 1);
                    lines.insert(place, line);
                }
                *text = lines.concat();
            }
            Damage::SwapFields => swap_fields(rng, text),
            Damage::Number | Damage::HeadNumber | Damage::Neighbour | Damage::TooManyDigits => {
                self.change_number(rng, text);
            }
            Damage::LeftOver => {
                let lines = lines(text);
                let rest = match rng.below(4) {
                    0 => b"\n".to_vec(),
                    1 if !lines.is_empty() => rng.pick(&lines),
                    2 => vec![byte(rng)],
                    _ => b"E,0,1,0\n".to_vec(),
                };
                text.extend_from_slice(&rest);
            }
            Damage::AsLongAsMayBe => pad(rng, text, MAX_TEXT),
            Damage::TooLong => {
                let length = MAX_TEXT + rng.pick(&[1, 1, 1, 2, 10, 5_000]);
                pad(rng, text, length);
            }
        }
    }

    fn change_number(self, rng: &mut Rng, text: &mut Vec<u8>) {
        let mut numbers = numbers(text);
        if self == Damage::HeadNumber {
            let head = text.iter().position(|&byte| byte == b'\n');
            numbers.retain(|number| number.1 <= head.unwrap_or(0));
        }
        if numbers.is_empty() {
            return;
        }
        let (start, end) = rng.pick(&numbers);
        let old = String::from_utf8_lossy(&text[start..end]).into_owned();
        let new = match self {
            Damage::Neighbour => neighbour(rng, &old),
            Damage::HeadNumber if rng.one_in(2) => neighbour(rng, &old),
            Damage::TooManyDigits => {
                let zeros = rng.pick(&["0", "00000000000"]);
                rng.pick(&[
                    format!("{zeros}{old}"),
                    format!("{old}00000000000"),
                    format!("{:0<11}", if old == "0" { "1" } else { &old }),
                    format!("{:0<10}", if old == "0" { "1" } else { &old }),
                ])
            }
            _ => rng.pick(&NUMBERS).to_string(),
        };
        text.splice(start..end, new.into_bytes());
    }
}

/// The number before or after.
fn neighbour(rng: &mut Rng, number: &str) -> String {
    let number: u64 = number.parse().unwrap_or(0);
    let below = number.saturating_sub(1);
    rng.pick(&[below, number + 1]).to_string()
}

fn byte(rng: &mut Rng) -> u8 {
    if rng.one_in(8) {
        rng.draw() as u8
    } else {
        rng.pick(BYTES)
    }
}

/// The lines, each with its LF.
fn lines(text: &[u8]) -> Vec<Vec<u8>> {
    let lines = text.split_inclusive(|&byte| byte == b'\n');
    lines.map(<[u8]>::to_vec).collect()
}

/// Where the numbers begin and end.
fn numbers(text: &[u8]) -> Vec<(usize, usize)> {
    let mut numbers = Vec::new();
    let mut start = None;
    for (place, byte) in text.iter().enumerate() {
        match (byte.is_ascii_digit(), start) {
            (true, None) => start = Some(place),
            (false, Some(first)) => {
                numbers.push((first, place));
                start = None;
            }
            _ => {}
        }
    }
    if let Some(first) = start {
        numbers.push((first, text.len()));
    }
    numbers
}

fn swap_fields(rng: &mut Rng, text: &mut Vec<u8>) {
    let mut lines = lines(text);
    if lines.is_empty() {
        return;
    }
    let place = rng.below(lines.len());
    let line = lines[place].strip_suffix(b"\n").unwrap_or(&lines[place]);
    let mut fields: Vec<&[u8]> = line.split(|&byte| byte == b',').collect();
    let (one, other) = (rng.below(fields.len()), rng.below(fields.len()));
    fields.swap(one, other);
    let mut changed = fields.join(&b',');
    changed.push(b'\n');
    lines[place] = changed;
    *text = lines.concat();
}

/// Makes `text` as long as `length` by repeating a part of it, or a byte.
fn pad(rng: &mut Rng, text: &mut Vec<u8>, length: usize) {
    let lines = lines(text);
    let filler = match lines.last() {
        Some(line) if rng.one_in(2) => line.clone(),
        _ => vec![byte(rng)],
    };
    while text.len() < length {
        let missing = length - text.len();
        text.extend_from_slice(&filler[..filler.len().min(missing)]);
    }
}
