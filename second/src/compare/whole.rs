//! Makes whole files: drafts that keep to every bound.

use crate::dice::Dice;
use crate::draft::Draft;

pub const MOST_TURNS: usize = 16384;
const NAMES: [&str; 5] = ["ticket", "mcs", "central", "dissem", "tree"];

/// A whole file of any length.
pub fn any(dice: &mut Dice) -> Draft {
    let mut draft = without_turns(dice);
    let length = match dice.below(100) {
        0..=3 => 0,
        4..=18 => dice.between(1, 20),
        19..=48 => dice.between(20, 400),
        49..=84 => long_enough(dice, &draft),
        85..=92 => MOST_TURNS,
        _ => dice.between(1, MOST_TURNS),
    };
    draft.turns = schedule(dice, draft.procs, length);
    draft.budget = budget(dice, &draft);
    draft
}

/// A whole file with few turns, to be damaged.
pub fn short(dice: &mut Dice) -> Draft {
    let mut draft = without_turns(dice);
    let length = dice.below(40);
    draft.turns = schedule(dice, draft.procs, length);
    draft.budget = budget(dice, &draft);
    draft
}

fn without_turns(dice: &mut Dice) -> Draft {
    let algo = dice.pick(&NAMES).to_string();
    let procs = match dice.below(100) {
        0..=59 => dice.between(1, 8),
        60..=72 => 64,
        _ => dice.between(9, 64),
    };
    let home = if dice.chance(30) { 0 } else { dice.below(procs) };
    let ticket = match dice.below(10) {
        0..=2 => 0,
        3..=6 => dice.between(65525, 65535),
        7 => 65535,
        _ => dice.below(65536),
    };
    let plans = plans(dice, procs);
    Draft { algo, procs, home, ticket, budget: 0, plans, turns: Vec::new() }
}

fn plans(dice: &mut Dice, procs: usize) -> Vec<(usize, usize)> {
    let (few, small) = (dice.between(2, 6), dice.between(1, 4));
    let rounds_way = dice.below(100);
    let hold_way = dice.below(100);
    (0..procs).map(|_| (rounds(dice, rounds_way, few), hold(dice, hold_way, small))).collect()
}

fn rounds(dice: &mut Dice, way: usize, few: usize) -> usize {
    match way {
        0..=3 => 0,
        4..=18 => 1,
        19..=48 => few,
        49..=68 => 1000,
        69..=78 => dice.between(0, 3),
        79..=88 => dice.between(1, few),
        _ => dice.pick(&[0, 1, 2, 5, 40, 999, 1000]),
    }
}

fn hold(dice: &mut Dice, way: usize, small: usize) -> usize {
    match way {
        0..=44 => 0,
        45..=64 => small,
        65..=82 => dice.between(0, small),
        83..=88 => 255,
        89..=94 => dice.pick(&[0, 1, 7, 254, 255]),
        _ => dice.between(0, 255),
    }
}

/// Turns for about so many complete passages of every processor.
fn long_enough(dice: &mut Dice, draft: &Draft) -> usize {
    let procs = draft.procs;
    let most_rounds = draft.plans.iter().map(|plan| plan.0).max().unwrap_or(0);
    let longest_hold = draft.plans.iter().map(|plan| plan.1).max().unwrap_or(0);
    let holds: usize = draft.plans.iter().map(|plan| plan.1).sum();
    let one_each = match draft.algo.as_str() {
        "ticket" | "mcs" => procs * (4 * procs + holds + 6),
        "central" => procs * (4 + longest_hold),
        "tree" => procs * (6 * levels(procs) + 3 + longest_hold),
        _ => procs * (2 * levels(procs) + 2 + longest_hold),
    };
    let passages = most_rounds.min(dice.between(1, 9));
    let length = one_each * passages * dice.between(2, 6) / 2;
    length.clamp(1, MOST_TURNS)
}

/// How often 1 has to be doubled to reach P.
fn levels(procs: usize) -> usize {
    procs.next_power_of_two().ilog2() as usize
}

fn schedule(dice: &mut Dice, procs: usize, length: usize) -> Vec<usize> {
    let mut turns = Vec::with_capacity(length);
    while turns.len() < length {
        let left = length - turns.len();
        let piece = if dice.chance(60) { left } else { dice.between(1, left) };
        match dice.below(8) {
            0 => round_robin(dice, procs, piece, &mut turns),
            1 | 2 => turns.extend((0..piece).map(|_| dice.below(procs))),
            3 => bursts(dice, procs, piece, &mut turns),
            4 | 5 => bursts_in_order(dice, procs, piece, &mut turns),
            6 => starving(dice, procs, piece, &mut turns),
            _ => favoured(dice, procs, piece, &mut turns),
        }
    }
    turns
}

fn round_robin(dice: &mut Dice, procs: usize, piece: usize, turns: &mut Vec<usize>) {
    let first = dice.below(procs);
    let stride = dice.pick(&[1, procs - 1, 1 + procs / 2]);
    turns.extend((0..piece).map(|turn| (first + turn * stride + turn / procs) % procs));
}

/// Several turns in a row for one processor, then for another.
fn bursts(dice: &mut Dice, procs: usize, piece: usize, turns: &mut Vec<usize>) {
    let longest = dice.pick(&[2, 3, 5, 12, 40]);
    let end = turns.len() + piece;
    while turns.len() < end {
        let processor = dice.below(procs);
        let burst = dice.between(1, longest).min(end - turns.len());
        turns.extend(std::iter::repeat_n(processor, burst));
    }
}

/// The same count of turns in a row for one processor after another, so that
/// a queue is served in its order and whole passages fit in.
fn bursts_in_order(dice: &mut Dice, procs: usize, piece: usize, turns: &mut Vec<usize>) {
    let first = dice.below(procs);
    let burst = dice.pick(&[2, 3, 4, 5, 6, 7, 9, 14]);
    turns.extend((0..piece).map(|turn| (first + turn / burst) % procs));
}

/// One processor gets a turn only now and then, or none at all.
fn starving(dice: &mut Dice, procs: usize, piece: usize, turns: &mut Vec<usize>) {
    let starved = dice.below(procs);
    let percent = dice.pick(&[0, 1, 5]);
    turns.extend((0..piece).map(|_| {
        let other = (starved + 1 + dice.below(procs.max(2) - 1)) % procs;
        if dice.chance(percent) {
            starved
        } else {
            other
        }
    }));
}

/// One processor gets most of the turns.
fn favoured(dice: &mut Dice, procs: usize, piece: usize, turns: &mut Vec<usize>) {
    let favourite = dice.below(procs);
    turns.extend((0..piece).map(|_| if dice.chance(70) { favourite } else { dice.below(procs) }));
}

fn budget(dice: &mut Dice, draft: &Draft) -> usize {
    match dice.below(100) {
        0..=4 => 0,
        5..=16 => dice.between(1, 20),
        17..=39 => (likely_need(draft) + dice.below(7)).saturating_sub(3).min(16384),
        40..=49 => dice.below(draft.turns.len() + 1),
        50..=56 => dice.between(0, 16384),
        57..=60 => 16383,
        _ => 16384,
    }
}

/// About the remote references of a complete run.
fn likely_need(draft: &Draft) -> usize {
    let passages: usize = draft.plans.iter().map(|plan| plan.0).sum();
    let episodes = draft.plans.iter().map(|plan| plan.0).min().unwrap_or(0);
    let need = match draft.algo.as_str() {
        "dissem" => passages * levels(draft.procs),
        "mcs" => 4 * passages,
        "tree" => episodes * (2 * draft.procs - 2),
        _ => draft.turns.len() - draft.turns.len() / draft.procs,
    };
    need.min(draft.turns.len())
}
