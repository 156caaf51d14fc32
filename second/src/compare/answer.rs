//! Takes a program's output apart and checks that it has the right form and
//! agrees with itself, without playing anything.

use crate::draft::Draft;

/// What an output says.
pub enum Answer {
    Run(Run),
    Refused { number: usize, place: usize },
}

pub struct Run {
    turns: usize,
    stop: usize,
    pub remote: usize,
    /// Passages done, remote references, most in one passage, spins, idle.
    records: Vec<[usize; 5]>,
    /// Letter and processor.
    events: Vec<(u8, usize)>,
}

type Fault = String;

fn number(text: &str) -> Result<usize, Fault> {
    let plain = text == "0" || !text.starts_with('0');
    let digits = !text.is_empty() && text.bytes().all(|byte| byte.is_ascii_digit());
    match text.parse() {
        Ok(value) if plain && digits => Ok(value),
        _ => Err(format!("not a number: {text:?}")),
    }
}

fn labelled<'a>(line: Option<&'a str>, label: &str) -> Result<&'a str, Fault> {
    line.and_then(|line| line.strip_prefix(label)).ok_or(format!("no line {label}"))
}

fn record(line: &str, processor: usize) -> Result<[usize; 5], Fault> {
    let values = labelled(Some(line), &format!("p{processor}="))?;
    let values: Vec<usize> = values.split(',').map(number).collect::<Result<_, _>>()?;
    values.try_into().map_err(|_| format!("not five counts: {line}"))
}

fn events(text: &str) -> Result<Vec<(u8, usize)>, Fault> {
    if text.is_empty() {
        return Ok(Vec::new());
    }
    let event = |text: &str| match text.bytes().next() {
        Some(letter) if b"jgral".contains(&letter) => Ok((letter, number(&text[1..])?)),
        _ => Err(format!("not an event: {text:?}")),
    };
    text.split(',').map(event).collect()
}

/// Reads an output whose lines all end in a line feed.
pub fn parse(output: &[u8]) -> Result<Answer, Fault> {
    let text = std::str::from_utf8(output).map_err(|_| "bytes outside ASCII")?;
    let text = text.strip_suffix('\n').ok_or("no line feed at the end")?;
    let lines: Vec<&str> = text.split('\n').collect();
    if let Some(refused) = lines[0].strip_prefix("refused=") {
        let place = labelled(lines.get(1).copied(), "place=")?;
        if lines.len() != 2 {
            return Err("a refusal has two lines".to_string());
        }
        return Ok(Answer::Refused { number: number(refused)?, place: number(place)? });
    }
    let at = |line: usize| lines.get(line).copied();
    let head = |line: usize, label: &str| number(labelled(at(line), label)?);
    let (turns, stop, remote) = (head(0, "turns=")?, head(1, "stop=")?, head(2, "remote=")?);
    let last = lines.len() - 1;
    let events = events(labelled(at(last), "events=")?)?;
    let records = (3..last).map(|line| record(lines[line], line - 3)).collect::<Result<_, _>>()?;
    Ok(Answer::Run(Run { turns, stop, remote, records, events }))
}

/// Fails with the reason when something does not hold.
fn demand(holds: bool, what: &str) -> Result<(), Fault> {
    if holds {
        Ok(())
    } else {
        Err(format!("does not hold: {what}"))
    }
}

impl Answer {
    /// Checks what can be checked for any file of this length; `draft` is
    /// given for a whole file.
    pub fn check(&self, length: usize, draft: Option<&Draft>) -> Result<(), Fault> {
        match self {
            Answer::Refused { number, place } => {
                demand((1..=5).contains(number), "the number of refusal is 1 to 5")?;
                demand(*place <= length, "the place is at most the file's length")?;
                demand(draft.is_none(), "a whole file is accepted")
            }
            Answer::Run(run) => {
                run.check_counts()?;
                run.check_events()?;
                run.check_order()?;
                draft.map_or(Ok(()), |draft| run.check_draft(draft))?;
                draft.map_or(Ok(()), |draft| run.check_tree(draft))
            }
        }
    }
}

impl Run {
    fn check_counts(&self) -> Result<(), Fault> {
        let sum = |column: usize| self.records.iter().map(|record| record[column]).sum::<usize>();
        demand((1..=64).contains(&self.records.len()), "there are 1 to 64 p lines")?;
        demand(self.stop <= 1, "stop is 0 or 1")?;
        demand(self.turns <= 16384, "at most 16384 turns")?;
        demand(sum(1) == self.remote, "the p lines' remote numbers add up to remote=")?;
        demand(sum(1) + sum(4) <= self.turns, "a turn is at most one of remote and idle")?;
        demand(sum(3) + sum(4) <= self.turns, "a turn is at most one of spin and idle")?;
        let most_fits = |record: &[usize; 5]| {
            record[2] <= record[1]
                && (record[2] > 0) == (record[1] > 0)
                && record[1] <= record[2] * (record[0] + 1)
        };
        demand(self.records.iter().all(most_fits), "most in one passage fits the remote number")
    }

    /// Each processor's events in their turn, and one for each passage done.
    fn check_events(&self) -> Result<(), Fault> {
        demand(self.events.len() <= 2 * self.turns, "at most two events a turn")?;
        for (processor, record) in self.records.iter().enumerate() {
            let own = self.events.iter().filter(|event| event.1 == processor);
            let letters: Vec<u8> = own.map(|event| event.0).collect();
            let cycle: &[u8] = if letters.first() == Some(&b'a') { b"al" } else { b"jgr" };
            let in_turn = letters.iter().zip(cycle.iter().cycle()).all(|(a, b)| a == b);
            demand(in_turn, "a processor's events come in their turn")?;
            demand(letters.len() / cycle.len() == record[0], "events fit the passages done")?;
        }
        let known = self.events.iter().all(|event| event.1 < self.records.len());
        demand(known, "events name processors below procs")
    }

    /// A lock is granted in the order of joining and to one at a time; a
    /// barrier is left only after all have arrived.
    fn check_order(&self) -> Result<(), Fault> {
        let mut queue = std::collections::VecDeque::new();
        let mut holder = None;
        let mut arrived = vec![0; self.records.len()];
        let mut left = vec![0; self.records.len()];
        for &(letter, processor) in &self.events {
            match letter {
                b'j' => queue.push_back(processor),
                b'g' => {
                    demand(holder.is_none(), "one holds the lock at a time")?;
                    demand(queue.pop_front() == Some(processor), "grants follow the joins")?;
                    holder = Some(processor);
                }
                b'r' => demand(holder.take() == Some(processor), "the holder releases")?,
                b'a' => arrived[processor] += 1,
                _ => {
                    left[processor] += 1;
                    let all = arrived.iter().all(|&count| count >= left[processor]);
                    demand(all, "a barrier is left after all have arrived")?;
                }
            }
        }
        Ok(())
    }

    fn check_draft(&self, draft: &Draft) -> Result<(), Fault> {
        let scheduled = draft.turns.len();
        demand(self.records.len() == draft.procs, "as many p lines as processors")?;
        demand(self.remote <= draft.budget, "remote is within the budget")?;
        if self.stop == 0 {
            demand(self.turns == scheduled, "stop=0: all turns are taken")?;
        } else {
            demand(self.turns < scheduled, "stop=1: a turn is left")?;
            demand(self.remote == draft.budget, "stop=1: the budget is used up")?;
        }
        for (processor, record) in self.records.iter().enumerate() {
            let taken = draft.turns[..self.turns].iter().filter(|&&turn| turn == processor).count();
            let rounds = draft.plans[processor].0;
            demand(record[0] <= rounds, "no more passages than rounds")?;
            demand(record[4] == 0 || record[0] == rounds, "idle only when all are done")?;
            demand(record[3] + record[4] <= taken, "spins and idle turns are turns")?;
        }
        Ok(())
    }

    /// With nobody under way each episode of the tree barrier has made 2P - 2
    /// remote references.
    fn check_tree(&self, draft: &Draft) -> Result<(), Fault> {
        let done: usize = self.records.iter().map(|record| record[0]).sum();
        if draft.algo != "tree" || self.events.len() != 2 * done {
            return Ok(());
        }
        let episodes = done / draft.procs;
        demand(self.remote == episodes * (2 * draft.procs - 2), "a tree episode makes 2P - 2")
    }
}
