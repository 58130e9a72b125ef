//! Files that are nearly plans.

use crate::random::Random;
use rack_model::file::{self, MOST_BYTES};
use rack_model::{Row, Table, Task};

/// Changes a file in one of many ways, and says which.
pub fn damage(random: &mut Random, text: &mut Vec<u8>) -> &'static str {
    if text.is_empty() {
        return "empty";
    }
    match random.below(20) {
        0 | 1 => {
            change_bytes(random, text, 1);
            "a byte changed"
        }
        2 => {
            let count = random.between(2, 6);
            change_bytes(random, text, count);
            "bytes changed"
        }
        3 => {
            let at = random.index(text.len() + 1);
            let byte = any_byte(random);
            text.insert(at, byte);
            "a byte more"
        }
        4 => {
            let at = random.index(text.len());
            text.remove(at);
            "a byte less"
        }
        5 => {
            let length = random.index(text.len() + 1);
            text.truncate(length);
            "cut at a byte"
        }
        6 => {
            extend(random, text);
            "bytes behind"
        }
        7 => {
            carriage_returns(random, text);
            "CR LF"
        }
        8..=12 => {
            change_value(random, text);
            "another value"
        }
        13 | 14 => {
            change_key(random, text);
            "another key"
        }
        15 => {
            move_lines(random, text);
            "lines moved"
        }
        16 => {
            about_the_most_bytes(random, text);
            "about 8192 bytes"
        }
        17 => {
            // A value out of range, and its LF missing at the end of the file.
            change_value(random, text);
            cut_at_a_line(random, text);
            text.pop();
            "another value, last LF missing"
        }
        18 => {
            cut_at_a_line(random, text);
            "cut at a line"
        }
        _ => {
            let length = random.spread(0, 9000) as usize;
            *text = (0..length).map(|_| any_byte(random)).collect();
            "any bytes"
        }
    }
}

fn any_byte(random: &mut Random) -> u8 {
    match random.below(4) {
        0 => random.pick(b"0123456789"),
        1 => random.pick(b"=\n\r -+.,\t\0/:;<_"),
        2 => random.pick(b"planprocessorstasksperioddeadlinetimeyPLAN"),
        _ => random.next() as u8,
    }
}

fn change_bytes(random: &mut Random, text: &mut [u8], count: u64) {
    for _ in 0..count {
        let at = random.index(text.len());
        text[at] = match random.below(4) {
            0 => text[at] ^ (1 << random.below(8)),
            1 => text[at].wrapping_add(random.pick(&[1, 255])),
            _ => any_byte(random),
        };
    }
}

fn extend(random: &mut Random, text: &mut Vec<u8>) {
    let more: Vec<u8> = match random.below(6) {
        0 => b"\n".to_vec(),
        1 => b"0".to_vec(),
        2 => last_line(text),
        3 => b"\0".to_vec(),
        4 => format!("task={}\n", random.between(1, 33)).into_bytes(),
        _ => (0..random.between(1, 40)).map(|_| any_byte(random)).collect(),
    };
    text.extend(more);
}

fn last_line(text: &[u8]) -> Vec<u8> {
    let lines = lines_of(text);
    lines.last().cloned().unwrap_or_default()
}

/// The lines with their LFs.
fn lines_of(text: &[u8]) -> Vec<Vec<u8>> {
    text.split_inclusive(|byte| *byte == b'\n').map(<[u8]>::to_vec).collect()
}

fn carriage_returns(random: &mut Random, text: &mut Vec<u8>) {
    let mut lines = lines_of(text);
    let all = random.one_in(2);
    let one = random.index(lines.len());
    for (index, line) in lines.iter_mut().enumerate() {
        if (all || index == one) && line.last() == Some(&b'\n') {
            line.insert(line.len() - 1, b'\r');
        }
    }
    *text = lines.concat();
}

/// Gives one line another value: another number, one at an edge of a range, or no number.
fn change_value(random: &mut Random, text: &mut Vec<u8>) {
    let mut lines = lines_of(text);
    let at = line_of_any_key(random, &lines);
    let line = &mut lines[at];
    let Some(sign) = line.iter().position(|byte| *byte == b'=') else {
        return;
    };
    let old = String::from_utf8_lossy(&line[sign + 1..]).trim_end_matches('\n').to_string();
    let new = match random.below(13) {
        0 => format!("0{old}"),
        1 => format!("{}{old}", random.pick(&["+", "-", " ", "0x", "00", "_"])),
        2 => format!("{old}{}", random.pick(&[" ", ".", ",", "\r", "\t", "=", "e0", "\0", ":", "/"])),
        3 => String::new(),
        4 => "9".repeat(random.between(8, 40) as usize),
        5 => format!("1{}", "0".repeat(random.between(7, 30) as usize)),
        6 => "18446744073709551617".to_string(),
        7 => "4294967297".to_string(),
        8 => {
            let edge = random.pick(&[1, 16, 32, 128, 255, 1_000_000, 160_000_000u64]);
            (edge + random.below(3) - 1).to_string()
        }
        9 => random.below(4).to_string(),
        10 => (old.parse::<u64>().unwrap_or(0) + random.pick(&[1, 2])).to_string(),
        11 => random.spread(0, 999_999_999).to_string(),
        _ => format!("{old}{old}"),
    };
    line.truncate(sign + 1);
    line.extend(new.into_bytes());
    line.push(b'\n');
    *text = lines.concat();
}

/// A line, each key being as likely as every other.
fn line_of_any_key(random: &mut Random, lines: &[Vec<u8>]) -> usize {
    const KEYS: [&str; 10] = [
        "plan=",
        "processors=",
        "tasks=",
        "task=",
        "period=",
        "deadline=",
        "steps=",
        "processor=",
        "priority=",
        "time=",
    ];
    let key = random.pick(&KEYS).as_bytes();
    let found: Vec<usize> = (0..lines.len()).filter(|at| lines[*at].starts_with(key)).collect();
    if found.is_empty() {
        random.index(lines.len())
    } else {
        random.pick(&found)
    }
}

fn change_key(random: &mut Random, text: &mut Vec<u8>) {
    let mut lines = lines_of(text);
    let at = line_of_any_key(random, &lines);
    let line = &mut lines[at];
    let sign = line.iter().position(|byte| *byte == b'=').unwrap_or(line.len());
    match random.below(8) {
        0 => line.insert(sign, b's'),
        1 if sign > 0 => {
            line.remove(sign - 1);
        }
        2 if sign > 1 => {
            let i = random.index(sign - 1);
            line.swap(i, i + 1);
        }
        3 if sign > 0 => {
            let i = random.index(sign);
            line[i] = line[i].to_ascii_uppercase();
        }
        4 if sign < line.len() => line[sign] = random.pick(b":- \n"),
        5 => line.insert(0, random.pick(b" \t\n#")),
        6 if sign < line.len() => line.insert(sign, b' '),
        _ => {
            let keys = [
                "plan",
                "processors",
                "tasks",
                "task",
                "period",
                "deadline",
                "steps",
                "processor",
                "priority",
                "time",
                "switch",
                "",
            ];
            line.splice(..sign, random.pick(&keys).bytes());
        }
    }
    *text = lines.concat();
}

/// Swaps two lines, doubles one or leaves one out.
fn move_lines(random: &mut Random, text: &mut Vec<u8>) {
    let mut lines = lines_of(text);
    let (one, other) = (random.index(lines.len()), random.index(lines.len()));
    match random.below(3) {
        0 => lines.swap(one, other),
        1 => lines.insert(other, lines[one].clone()),
        _ => {
            lines.remove(one);
        }
    }
    *text = lines.concat();
}

/// Ends the file behind some line.
fn cut_at_a_line(random: &mut Random, text: &mut Vec<u8>) {
    let mut lines = lines_of(text);
    lines.truncate(random.between(1, lines.len() as u64) as usize);
    *text = lines.concat();
}

/// Brings the file to about as many bytes as a file may have.
fn about_the_most_bytes(random: &mut Random, text: &mut Vec<u8>) {
    let length = (MOST_BYTES as u64 - 2 + random.below(5)) as usize;
    match random.below(3) {
        0 => text.resize(length, b'\n'),
        1 => text.resize(length, b'0'),
        _ => {
            // Leading zeros in the middle.
            if let Some(at) = text.iter().position(|byte| *byte == b'=') {
                let more = length.saturating_sub(text.len());
                text.splice(at + 1..at + 1, std::iter::repeat(b'0').take(more));
            }
        }
    }
}

/// A file whose rows come to about as many as there may be, or above.
pub fn about_the_most_rows(random: &mut Random) -> Vec<u8> {
    let processors = random.between(1, 16);
    let rows = random.between(126, 131);
    let mut table = Table { processors, tasks: Vec::new(), rows: Vec::new() };
    let mut left = rows;
    while left > 0 && table.tasks.len() < 32 {
        let last = table.tasks.len() == 31 || left <= 16 && random.one_in(2);
        let steps = if last { left.min(16) } else { random.between(1, left.min(16)).max(left.min(4)) };
        let task = table.tasks.len();
        table.tasks.push(Task { period: random.spread(1000, 1_000_000), deadline: 0, steps });
        for step in 0..steps {
            let (processor, priority) = (random.between(1, processors), random.between(1, 255));
            table.rows.push(Row { processor, priority, time: random.between(1, 9), task, first: step == 0 });
        }
        left -= steps;
    }
    let mut text = file::write(&table);
    // The same with a `steps` that is out of range too, or a row that is at fault further on.
    if random.one_in(4) {
        damage(random, &mut text);
    }
    text
}
