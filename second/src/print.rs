//! The lines printed for a run or for a refusal.

use crate::notes::{Event, Kind};
use crate::play::{Outcome, Record, Stop};
use crate::reader::Refusal;

pub fn put_number(out: &mut Vec<u8>, number: usize) {
    if number >= 10 {
        put_number(out, number / 10);
    }
    out.push(b'0' + (number % 10) as u8);
}

fn put_line(out: &mut Vec<u8>, label: &str, number: usize) {
    out.extend_from_slice(label.as_bytes());
    put_number(out, number);
    out.push(b'\n');
}

fn put_record(out: &mut Vec<u8>, processor: usize, record: &Record) {
    out.push(b'p');
    put_number(out, processor);
    let Record { done, remote, most, spins, idle } = *record;
    let mut before = b'=';
    for count in [done, remote, most, spins, idle] {
        out.push(before);
        put_number(out, count as usize);
        before = b',';
    }
    out.push(b'\n');
}

fn letter(kind: Kind) -> u8 {
    match kind {
        Kind::Join => b'j',
        Kind::Grant => b'g',
        Kind::Release => b'r',
        Kind::Arrive => b'a',
        Kind::Leave => b'l',
    }
}

fn put_events(out: &mut Vec<u8>, events: &[Event]) {
    out.extend_from_slice(b"events=");
    for (place, event) in events.iter().enumerate() {
        if place > 0 {
            out.push(b',');
        }
        out.push(letter(event.kind));
        put_number(out, usize::from(event.processor));
    }
    out.push(b'\n');
}

pub fn outcome_lines(outcome: &Outcome) -> Vec<u8> {
    let mut out = Vec::with_capacity(4096 + 4 * outcome.events.len());
    put_line(&mut out, "turns=", outcome.turns);
    let stop = match outcome.stop {
        Stop::ScheduleUsedUp => 0,
        Stop::Budget => 1,
    };
    put_line(&mut out, "stop=", stop);
    put_line(&mut out, "remote=", outcome.remote as usize);
    for (processor, record) in outcome.records.iter().enumerate() {
        put_record(&mut out, processor, record);
    }
    put_events(&mut out, &outcome.events);
    out
}

pub fn refusal_lines(refusal: &Refusal) -> Vec<u8> {
    let mut out = Vec::new();
    put_line(&mut out, "refused=", usize::from(refusal.number));
    put_line(&mut out, "place=", refusal.place);
    out
}
