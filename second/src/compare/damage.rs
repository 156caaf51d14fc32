//! Makes damaged files: a draft with a value at or past a bound, or a whole
//! file with some of its bytes changed. A few of them are still accepted.

use crate::dice::Dice;
use crate::draft::Draft;
use crate::whole::{self, MOST_TURNS};

/// Bytes that stand just outside what a line may hold, and some far outside.
const STRANGE: &[u8] = b"\0\t\n\r +-,./0:;=AZ`amz{\x7f\x80\xb5\xc3\xff";

pub fn any(dice: &mut Dice) -> Vec<u8> {
    let mut draft = if dice.chance(90) { whole::short(dice) } else { whole::any(dice) };
    match dice.below(24) {
        0..=4 => boundary(dice, &mut draft),
        5 => return bad_name(dice, draft),
        6 => plan_lines(dice, &mut draft),
        7 => bad_turn(dice, &mut draft),
        8 => return full_schedule(dice, draft),
        9 | 10 => return any_number(dice, draft.bytes()),
        _ => return bytewise(dice, draft.bytes()),
    }
    let file = draft.bytes();
    if dice.chance(10) {
        bytewise(dice, file)
    } else {
        file
    }
}

/// The smallest and the largest number of six to nine digits, which are out
/// of every range, and their neighbours.
const BIG: [usize; 4] = [99_999, 100_000, 999_999_999, 1_000_000_000];

/// One value at a bound, just below or just above it.
fn boundary(dice: &mut Dice, draft: &mut Draft) {
    let near = |dice: &mut Dice, bound: usize| (bound + dice.below(3)).saturating_sub(1);
    let processor = dice.below(draft.procs);
    match dice.below(10) {
        0 | 9 => draft.home = near(dice, draft.procs),
        1 => draft.ticket = near(dice, 65535),
        2 => draft.budget = near(dice, 16384),
        3 => draft.plans[processor].0 = near(dice, 1000),
        4 => draft.plans[processor].1 = near(dice, 255),
        5 => set_procs(draft, dice.pick(&[0, 1, 2, 63, 64, 65, 66])),
        6 => draft.ticket = big_or(dice, &[9999, 10000]),
        7 => draft.budget = big_or(dice, &[9999, 10000, 32768, 65535, 65536]),
        _ => {
            let rounds = big_or(dice, &[1000, 1001, 65536]);
            draft.plans[processor] = (rounds, big_or(dice, &[255, 256]));
        }
    }
}

fn big_or(dice: &mut Dice, others: &[usize]) -> usize {
    if dice.chance(50) {
        dice.pick(&BIG)
    } else {
        dice.pick(others)
    }
}

/// Changes P, and the lines of the processors with it.
fn set_procs(draft: &mut Draft, procs: usize) {
    draft.procs = procs;
    draft.plans.resize(procs, (1, 0));
}

/// Another name, sometimes with something else than a line feed behind it.
fn bad_name(dice: &mut Dice, mut draft: Draft) -> Vec<u8> {
    draft.algo = name(dice);
    let mut file = draft.bytes();
    if dice.chance(25) {
        spoil(dice, &mut file, "algo=".len() + draft.algo.len());
    }
    file
}

fn name(dice: &mut Dice) -> String {
    const NEAR: [&str; 13] = [
        "m",
        "mc",
        "mcz",
        "mcss",
        "Mcs",
        "tickets",
        "centra",
        "centrals",
        "dissemin",
        "disseminate",
        "tre",
        "trees",
        "treee",
    ];
    if dice.chance(50) {
        return dice.pick(&NEAR).to_string();
    }
    let length = dice.pick(&[0, 1, 2, 7, 8, 8, 9, 9, 10, 30]);
    (0..length).map(|_| char::from(b'a' + dice.below(26) as u8)).collect()
}

/// One processor's line too many, too few, or none.
fn plan_lines(dice: &mut Dice, draft: &mut Draft) {
    match dice.below(3) {
        0 => draft.plans.push((dice.below(1001), dice.below(256))),
        1 => drop(draft.plans.pop()),
        _ => draft.plans.clear(),
    }
}

/// A turn that is not below procs, often near the end.
fn bad_turn(dice: &mut Dice, draft: &mut Draft) {
    if draft.turns.is_empty() {
        draft.turns.push(0);
    }
    let count = draft.turns.len();
    let place =
        if dice.chance(70) { count - 1 - dice.below(count.min(3)) } else { dice.below(count) };
    draft.turns[place] = big_or(dice, &[draft.procs, draft.procs + 1, 64, 255, 256, 65536]);
}

/// A schedule at its longest, or past it.
fn full_schedule(dice: &mut Dice, mut draft: Draft) -> Vec<u8> {
    let procs = draft.procs;
    draft.turns = (0..MOST_TURNS + dice.below(2)).map(|turn| turn % procs).collect();
    if dice.chance(20) {
        let place = MOST_TURNS - 1 - dice.below(3);
        draft.turns[place] = big_or(dice, &[procs, 64]);
    }
    let mut file = draft.bytes();
    file.pop();
    const TAILS: [&str; 18] = [
        "\n",
        "\n",
        "\n",
        "",
        ",",
        ",\n",
        ",0",
        ",0\n",
        ",0,0\n",
        ",99999\n",
        ",100000\n",
        ",999999999\n",
        ",999999999,0\n",
        ",999999999",
        ",1000000000\n",
        ",00\n",
        ",64,\n",
        ",0\r\n",
    ];
    file.extend_from_slice(dice.pick(&TAILS).as_bytes());
    file
}

/// One change to the bytes, sometimes up to three.
fn bytewise(dice: &mut Dice, mut file: Vec<u8>) -> Vec<u8> {
    let changes = if dice.chance(85) { 1 } else { dice.between(2, 3) };
    for _ in 0..changes {
        match dice.below(18) {
            0 => flip_bit(dice, &mut file),
            1 | 2 => replace(dice, &mut file),
            3 | 4 => insert(dice, &mut file),
            5 => remove(dice, &mut file),
            6 | 7 => cut(dice, &mut file),
            8 => append(dice, &mut file),
            9..=12 => {
                let other = dice.pick(&NUMBERS);
                change_number(dice, &mut file, other);
            }
            13 | 14 => change_lines(dice, &mut file),
            15 => carriage_returns(dice, &mut file),
            16 => number_and_separator(dice, &mut file),
            _ => separators(dice, &mut file),
        }
    }
    file
}

/// A place in the file, the end included: anywhere, in the lines above the
/// turns, near the end, or next to a line feed.
fn place(dice: &mut Dice, file: &[u8]) -> usize {
    let length = file.len();
    match dice.below(10) {
        0..=3 => dice.below(length + 1),
        4..=6 => dice.below(length.min(90) + 1),
        7 | 8 => length - dice.below(length.min(8) + 1),
        _ => {
            let ends: Vec<usize> = (0..length).filter(|&at| file[at] == b'\n').collect();
            if ends.is_empty() {
                0
            } else {
                dice.pick(&ends) + dice.below(2)
            }
        }
    }
}

fn flip_bit(dice: &mut Dice, file: &mut [u8]) {
    let at = place(dice, file);
    let bit = 1 << dice.below(8);
    if let Some(byte) = file.get_mut(at) {
        *byte ^= bit;
    }
}

fn strange_byte(dice: &mut Dice) -> u8 {
    if dice.chance(75) {
        dice.pick(STRANGE)
    } else {
        dice.below(256) as u8
    }
}

fn replace(dice: &mut Dice, file: &mut [u8]) {
    let at = place(dice, file);
    let strange = strange_byte(dice);
    if let Some(byte) = file.get_mut(at) {
        *byte = strange;
    }
}

fn insert(dice: &mut Dice, file: &mut Vec<u8>) {
    let at = place(dice, file);
    for _ in 0..dice.pick(&[1, 1, 1, 2, 5]) {
        file.insert(at, strange_byte(dice));
    }
}

fn remove(dice: &mut Dice, file: &mut Vec<u8>) {
    let at = place(dice, file);
    let end = (at + dice.pick(&[1, 1, 1, 2, 9])).min(file.len());
    file.drain(at..end);
}

fn cut(dice: &mut Dice, file: &mut Vec<u8>) {
    let at = if dice.chance(20) { file.len().saturating_sub(1) } else { place(dice, file) };
    file.truncate(at);
}

fn append(dice: &mut Dice, file: &mut Vec<u8>) {
    const TAILS: [&str; 7] = ["\n", "0", " ", ",0\n", "turns=\n", "p0=1,0\n", "\0"];
    if dice.chance(50) {
        file.extend_from_slice(dice.pick(&TAILS).as_bytes());
    } else {
        file.push(strange_byte(dice));
    }
}

/// Where the digits of each number in the file begin and end.
fn numbers(file: &[u8]) -> Vec<(usize, usize)> {
    let mut found = Vec::new();
    let mut at = 0;
    while at < file.len() {
        let digits = file[at..].iter().take_while(|byte| byte.is_ascii_digit()).count();
        if digits > 0 {
            found.push((at, at + digits));
        }
        at += digits + 1;
    }
    found
}

/// Something else in place of a separator, or the end of the file.
fn spoil(dice: &mut Dice, file: &mut Vec<u8>, at: usize) {
    if at >= file.len() || dice.chance(30) {
        file.truncate(at);
    } else if dice.chance(50) {
        file[at] = strange_byte(dice);
    } else {
        file.insert(at, strange_byte(dice));
    }
}

/// A number of any length in place of one, sometimes with its separator
/// spoilt.
fn any_number(dice: &mut Dice, mut file: Vec<u8>) -> Vec<u8> {
    let end = change_number(dice, &mut file, any_length);
    if dice.chance(30) {
        spoil(dice, &mut file, end);
    }
    file
}

/// A number that is mostly out of its range, with its separator spoilt.
fn number_and_separator(dice: &mut Dice, file: &mut Vec<u8>) {
    let end = change_number(dice, file, large_number);
    spoil(dice, file, end);
}

fn large_number(dice: &mut Dice, _digits: &[u8]) -> Vec<u8> {
    big_or(dice, &[65, 256, 1001, 16385, 65536, 70000]).to_string().into_bytes()
}

/// Makes the digits that come in place of others.
type OtherNumber = fn(&mut Dice, &[u8]) -> Vec<u8>;
const NUMBERS: [OtherNumber; 4] = [any_length, any_length, leading_zero, other_number];

/// Writes another number over one that stands in the file; gives the place
/// behind it.
fn change_number(dice: &mut Dice, file: &mut Vec<u8>, other: OtherNumber) -> usize {
    let numbers = numbers(file);
    if numbers.is_empty() {
        return file.len();
    }
    let count = numbers.len();
    let among = match dice.below(3) {
        0 => dice.below(count),
        1 => dice.below(count.min(12)),
        _ => count - 1 - dice.below(count.min(4)),
    };
    let (begin, end) = numbers[among];
    let digits = other(dice, &file[begin..end]);
    let behind = begin + digits.len();
    file.splice(begin..end, digits);
    behind
}

/// 1 to 12 digits, seldom many more.
fn any_length(dice: &mut Dice, _digits: &[u8]) -> Vec<u8> {
    let length = if dice.chance(95) { dice.between(1, 12) } else { dice.pick(&[20, 21, 400]) };
    let first = b'1' + dice.below(9) as u8;
    let rest = (1..length).map(|_| b'0' + dice.below(10) as u8);
    std::iter::once(first).chain(rest).collect()
}

fn leading_zero(dice: &mut Dice, digits: &[u8]) -> Vec<u8> {
    let mut longer = vec![b'0'; dice.pick(&[1, 1, 2, 4, 5, 8, 9])];
    longer.extend_from_slice(digits);
    longer
}

fn other_number(dice: &mut Dice, _digits: &[u8]) -> Vec<u8> {
    const VALUES: [usize; 18] =
        [0, 1, 2, 7, 8, 9, 63, 64, 65, 255, 256, 1000, 1001, 16384, 16385, 65535, 65536, 99999];
    dice.pick(&VALUES).to_string().into_bytes()
}

/// Lines in a wrong order, a line twice, or a line missing.
fn change_lines(dice: &mut Dice, file: &mut Vec<u8>) {
    let mut lines: Vec<Vec<u8>> =
        file.split_inclusive(|&byte| byte == b'\n').map(<[u8]>::to_vec).collect();
    if lines.is_empty() {
        return;
    }
    let line = dice.below(lines.len());
    let any = dice.below(lines.len());
    match dice.below(4) {
        0 => lines.swap(line, any),
        1 => {
            let after = (line + 1) % lines.len();
            lines.swap(line, after);
        }
        2 => lines.insert(line, lines[line].clone()),
        _ => drop(lines.remove(line)),
    }
    *file = lines.concat();
}

/// CR LF in place of LF, on one line or on all.
fn carriage_returns(dice: &mut Dice, file: &mut Vec<u8>) {
    let ends = file.iter().filter(|&&byte| byte == b'\n').count();
    let only = if ends == 0 || dice.chance(50) { None } else { Some(dice.below(ends)) };
    let mut changed = Vec::with_capacity(file.len() + ends);
    let mut line = 0;
    for &byte in file.iter() {
        if byte == b'\n' {
            if only.is_none_or(|only| only == line) {
                changed.push(b'\r');
            }
            line += 1;
        }
        changed.push(byte);
    }
    *file = changed;
}

/// A separator doubled, left out, or exchanged for another.
fn separators(dice: &mut Dice, file: &mut Vec<u8>) {
    let places: Vec<usize> = (0..file.len()).filter(|&at| b",\n=".contains(&file[at])).collect();
    if places.is_empty() {
        return;
    }
    let at = dice.pick(&places);
    match dice.below(4) {
        0 => file.insert(at, file[at]),
        1 => drop(file.remove(at)),
        2 => file[at] = dice.pick(b",\n= ;"),
        _ => file.insert(at + 1, dice.pick(b",\n= ")),
    }
}
