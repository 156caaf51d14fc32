//! Reads a settings file byte by byte, from left to right; the first fault
//! found decides. A name or number is judged once its separator has been read.

use crate::settings::{Accepted, Algorithm, Plan, Settings};

const MOST_LETTERS: usize = 8;
const MOST_DIGITS: usize = 9;
const MOST_TURNS: usize = 16384;

/// The numbers of refusal that reading can give. There is no number 6: this
/// program's schedule buffer is always long enough.
const FORM: u8 = 1;
const UNKNOWN_NAME: u8 = 2;
const OUT_OF_RANGE: u8 = 3;
const NOT_BELOW_PROCS: u8 = 4;
const TOO_MANY_TURNS: u8 = 5;

/// Why a file is not accepted, and where.
#[derive(Clone, Copy, Debug, PartialEq, Eq)]
pub struct Refusal {
    pub number: u8,
    pub place: usize,
}

/// A number that has been read but not judged yet.
#[derive(Clone, Copy)]
struct Number {
    value: u32,
    place: usize,
}

impl Number {
    /// The value, or a refusal at the number's first byte.
    fn judged(self, within: bool, number: u8) -> Result<u32, Refusal> {
        if within {
            Ok(self.value)
        } else {
            Err(Refusal { number, place: self.place })
        }
    }

    fn in_range(self, least: u32, most: u32) -> Result<u32, Refusal> {
        self.judged(least <= self.value && self.value <= most, OUT_OF_RANGE)
    }
}

/// The file and the place of the next byte.
struct Cursor<'a> {
    bytes: &'a [u8],
    place: usize,
}

impl Cursor<'_> {
    fn peek(&self) -> Option<u8> {
        self.bytes.get(self.place).copied()
    }

    /// The byte at this place cannot follow. Where the file ends too soon
    /// the place is the file's length.
    fn off_form<T>(&self) -> Result<T, Refusal> {
        Err(Refusal { number: FORM, place: self.place })
    }

    /// Takes exactly this byte.
    fn byte(&mut self, wanted: u8) -> Result<(), Refusal> {
        if self.peek() != Some(wanted) {
            return self.off_form();
        }
        self.place += 1;
        Ok(())
    }

    /// Takes exactly these bytes.
    fn text(&mut self, wanted: &str) -> Result<(), Refusal> {
        wanted.bytes().try_for_each(|byte| self.byte(byte))
    }

    /// 1 to 8 lower-case letters; a ninth cannot follow.
    fn name(&mut self) -> Result<&[u8], Refusal> {
        let first = self.place;
        while self.peek().is_some_and(|byte| byte.is_ascii_lowercase()) {
            if self.place - first == MOST_LETTERS {
                return self.off_form();
            }
            self.place += 1;
        }
        if self.place == first {
            return self.off_form();
        }
        Ok(&self.bytes[first..self.place])
    }

    /// 1 to 9 digits; after a leading 0 no digit can follow, nor a tenth. A
    /// number of more than 5 is out of every range.
    fn number(&mut self) -> Result<Number, Refusal> {
        let first = self.place;
        let mut value = 0;
        while let Some(digit @ b'0'..=b'9') = self.peek() {
            let after_zero = self.place > first && value == 0;
            if after_zero || self.place - first == MOST_DIGITS {
                return self.off_form();
            }
            value = value * 10 + u32::from(digit - b'0');
            self.place += 1;
        }
        if self.place == first {
            return self.off_form();
        }
        Ok(Number { value, place: first })
    }

    /// A number and the separator behind it.
    fn number_then(&mut self, separator: u8) -> Result<Number, Refusal> {
        let number = self.number()?;
        self.byte(separator)?;
        Ok(number)
    }

    /// A line `label` number, judged against its range.
    fn line(&mut self, label: &str, least: u32, most: u32) -> Result<u32, Refusal> {
        self.text(label)?;
        self.number_then(b'\n')?.in_range(least, most)
    }

    fn algorithm(&mut self) -> Result<Algorithm, Refusal> {
        self.text("algo=")?;
        let place = self.place;
        let known = match self.name()? {
            b"ticket" => Some(Algorithm::Ticket),
            b"mcs" => Some(Algorithm::Mcs),
            b"central" => Some(Algorithm::Central),
            b"dissem" => Some(Algorithm::Dissem),
            b"tree" => Some(Algorithm::Tree),
            _ => None,
        };
        self.byte(b'\n')?;
        known.ok_or(Refusal { number: UNKNOWN_NAME, place })
    }

    /// The line of one processor: rounds, a comma, hold.
    fn plan(&mut self, processor: usize) -> Result<Plan, Refusal> {
        self.text(&format!("p{processor}="))?;
        let rounds = self.number_then(b',')?.in_range(0, 1000)? as u16;
        let hold = self.number_then(b'\n')?.in_range(0, 255)? as u16;
        Ok(Plan { rounds, hold })
    }

    fn settings(&mut self) -> Result<Settings, Refusal> {
        let algorithm = self.algorithm()?;
        let procs = self.line("procs=", 1, 64)? as usize;
        let home = self.line("home=", 0, procs as u32 - 1)? as usize;
        let ticket = self.line("ticket=", 0, 65535)? as u16;
        let budget = self.line("budget=", 0, 16384)?;
        let mut plans = Vec::with_capacity(procs);
        for processor in 0..procs {
            plans.push(self.plan(processor)?);
        }
        Ok(Settings { algorithm, procs, home, ticket, budget, plans })
    }

    /// The last line: nothing, or processor numbers with commas between.
    fn schedule(&mut self, procs: usize) -> Result<Vec<u8>, Refusal> {
        self.text("turns=")?;
        let mut schedule = Vec::with_capacity(self.bytes.len().min(MOST_TURNS));
        if self.peek() == Some(b'\n') {
            self.place += 1;
            return Ok(schedule);
        }
        loop {
            let turn = self.number()?;
            let separator = self.peek();
            if !matches!(separator, Some(b',' | b'\n')) {
                return self.off_form();
            }
            self.place += 1;
            turn.judged(schedule.len() < MOST_TURNS, TOO_MANY_TURNS)?;
            let processor = turn.judged((turn.value as usize) < procs, NOT_BELOW_PROCS)?;
            schedule.push(processor as u8);
            if separator == Some(b'\n') {
                return Ok(schedule);
            }
        }
    }
}

/// Reads a whole file.
pub fn read(bytes: &[u8]) -> Result<Accepted, Refusal> {
    let mut cursor = Cursor { bytes, place: 0 };
    let settings = cursor.settings()?;
    let schedule = cursor.schedule(settings.procs)?;
    if cursor.peek().is_some() {
        return cursor.off_form();
    }
    Ok(Accepted { settings, schedule })
}

#[cfg(test)]
mod tests {
    use super::read;

    fn refusal(file: &str) -> (u8, usize) {
        let refusal = read(file.as_bytes()).unwrap_err();
        (refusal.number, refusal.place)
    }

    #[test]
    fn names_and_numbers_wait_for_their_separator() {
        assert_eq!(refusal("algo=mcz"), (1, 8));
        assert_eq!(refusal("algo=mcz "), (1, 8));
        assert_eq!(refusal("algo=mcz\n"), (2, 5));
        assert_eq!(refusal("algo=abcdefgh\n"), (2, 5));
        assert_eq!(refusal("algo=abcdefghi\n"), (1, 13));
        assert_eq!(refusal("algo=mcs\nprocs=99999"), (1, 20));
        assert_eq!(refusal("algo=mcs\nprocs=99999\n"), (3, 15));
        assert_eq!(refusal("algo=mcs\nprocs=00\n"), (1, 16));
    }

    #[test]
    fn a_number_is_too_big_up_to_nine_digits() {
        assert_eq!(refusal("algo=mcs\nprocs=100000\n"), (3, 15));
        assert_eq!(refusal("algo=mcs\nprocs=100000"), (1, 21));
        assert_eq!(refusal("algo=mcs\nprocs=100000,"), (1, 21));
        assert_eq!(refusal("algo=mcs\nprocs=999999999\n"), (3, 15));
        assert_eq!(refusal("algo=mcs\nprocs=999999999"), (1, 24));
        assert_eq!(refusal("algo=mcs\nprocs=1000000000\n"), (1, 24));
        assert_eq!(refusal("algo=mcs\nprocs=1000000000"), (1, 24));
        assert_eq!(refusal("algo=mcs\nprocs=012345678\n"), (1, 16));
    }

    #[test]
    fn turns_are_judged_one_by_one() {
        let head = "algo=mcs\nprocs=1\nhome=0\nticket=0\nbudget=0\np0=1,0\nturns=";
        let start = head.len();
        let at = |tail: &str| refusal(&format!("{head}{tail}"));
        assert_eq!(at(""), (1, start));
        assert_eq!(at("0,"), (1, start + 2));
        assert_eq!(at("0,\n"), (1, start + 2));
        assert_eq!(at("0,1\n"), (4, start + 2));
        assert_eq!(at("0,1;"), (1, start + 3));
        assert_eq!(at("0,999999999\n"), (4, start + 2));
        assert_eq!(at("999999999,0\n"), (4, start));
        assert_eq!(at("0,999999999"), (1, start + 11));
        assert_eq!(at("0,9999999990\n"), (1, start + 11));
        assert_eq!(at("0,0\nx"), (1, start + 4));
        let full = vec!["0"; 16384].join(",");
        assert!(read(format!("{head}{full}\n").as_bytes()).is_ok());
        let end = start + full.len() + 1;
        assert_eq!(at(&format!("{full},\n")), (1, end));
        assert_eq!(at(&format!("{full},7")), (1, end + 1));
        assert_eq!(at(&format!("{full},7\n")), (5, end));
        assert_eq!(at(&format!("{full},999999999\n")), (5, end));
        assert_eq!(at(&format!("{full},999999999")), (1, end + 9));
        assert_eq!(at(&format!("{full},1000000000\n")), (1, end + 9));
    }
}
