//! Reads a settings file on standard input, plays its schedule and prints the
//! result or, if asked, the trace; or prints the refusal.

use second::reader;
use second::settings::Accepted;
use second::slip::{self, Slip};
use second::{play, print, trace};
use std::io::{self, Read, Write};
use std::process::ExitCode;

const USAGE: &str = "usage: second [--slip 1|2|3|4|5a|5b|6] [--trace]";

struct Options {
    slip: Slip,
    trace: bool,
}

/// Nothing if one is not known.
fn options() -> Option<Options> {
    let mut options = Options { slip: slip::NONE, trace: false };
    let mut arguments = std::env::args_os().skip(1);
    while let Some(argument) = arguments.next() {
        match argument.to_str()? {
            "--trace" => options.trace = true,
            "--slip" => {
                let name = arguments.next()?;
                options.slip = slip::NAMED.iter().find(|named| name == named.0)?.1;
            }
            _ => return None,
        }
    }
    Some(options)
}

/// Nothing if the slip is not one of the file's machine.
fn lines(file: &Accepted, options: &Options) -> Option<Vec<u8>> {
    if options.trace {
        trace::trace(file, options.slip)
    } else {
        play::play(file, options.slip).map(|outcome| print::outcome_lines(&outcome))
    }
}

fn main() -> io::Result<ExitCode> {
    let Some(options) = options() else {
        eprintln!("{USAGE}");
        return Ok(ExitCode::from(2));
    };
    let mut bytes = Vec::new();
    io::stdin().lock().read_to_end(&mut bytes)?;
    let lines = match reader::read(&bytes) {
        Ok(file) => lines(&file, &options),
        Err(refusal) => Some(print::refusal_lines(&refusal)),
    };
    let Some(lines) = lines else {
        eprintln!("second: {}", slip::of_another_machine(options.slip));
        return Ok(ExitCode::from(2));
    };
    io::stdout().lock().write_all(&lines)?;
    Ok(ExitCode::SUCCESS)
}
