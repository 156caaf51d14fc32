//! Runs the programs that are compared, and shows files and outputs.

use std::fs::{self, File};
use std::path::{Path, PathBuf};
use std::process::Command;

/// A program that reads a settings file on standard input.
pub struct Program {
    pub name: &'static str,
    path: PathBuf,
}

/// What a program printed and its exit status; none if it was killed.
pub struct Output {
    pub bytes: Vec<u8>,
    pub status: Option<i32>,
}

impl Program {
    pub fn new(name: &'static str, path: &str) -> Result<Program, String> {
        let path = fs::canonicalize(path).map_err(|fault| format!("{path}: {fault}"))?;
        Ok(Program { name, path })
    }

    /// Runs the program with the file as its standard input.
    pub fn run(&self, file: &Path) -> Result<Output, String> {
        let fault = |fault: std::io::Error| format!("the {} program: {fault}", self.name);
        let input = File::open(file).map_err(fault)?;
        let output = Command::new(&self.path).stdin(input).output().map_err(fault)?;
        Ok(Output { bytes: output.stdout, status: output.status.code() })
    }
}

/// A directory of this process alone, removed at the end.
pub struct Scratch {
    directory: PathBuf,
    pub file: PathBuf,
}

impl Scratch {
    pub fn new() -> Result<Scratch, String> {
        let directory = std::env::temp_dir().join(format!("compare-{}", std::process::id()));
        fs::create_dir_all(&directory).map_err(|fault| fault.to_string())?;
        let file = directory.join("file.txt");
        Ok(Scratch { directory, file })
    }

    /// Writes the file that the next runs take as their input.
    pub fn put(&self, bytes: &[u8]) -> Result<(), String> {
        fs::write(&self.file, bytes).map_err(|fault| fault.to_string())
    }
}

impl Drop for Scratch {
    fn drop(&mut self) {
        let _ = fs::remove_dir_all(&self.directory);
    }
}

/// Keeps a file under a name of its own among the temporary files.
pub fn keep(bytes: &[u8], name: &str) -> String {
    let path = std::env::temp_dir().join(name);
    match fs::write(&path, bytes) {
        Ok(()) => path.display().to_string(),
        Err(fault) => format!("nowhere ({fault})"),
    }
}

/// Bytes as text: line feeds as they are, what is not printable escaped, and
/// the middle left out where there is too much.
pub fn shown(bytes: &[u8]) -> String {
    const FRONT: usize = 2400;
    const BACK: usize = 600;
    if bytes.len() <= FRONT + BACK {
        return escaped(bytes);
    }
    let (front, back) = (&bytes[..FRONT], &bytes[bytes.len() - BACK..]);
    let left_out = bytes.len() - FRONT - BACK;
    format!("{}\n[... {left_out} bytes ...]\n{}", escaped(front), escaped(back))
}

fn escaped(bytes: &[u8]) -> String {
    let mut text = String::with_capacity(bytes.len());
    for &byte in bytes {
        match byte {
            b'\\' => text.push_str("\\\\"),
            b'\n' | b' '..=b'~' => text.push(char::from(byte)),
            _ => text.push_str(&format!("\\x{byte:02x}")),
        }
    }
    text
}

/// Where two outputs part.
pub fn first_difference(one: &[u8], other: &[u8]) -> usize {
    one.iter().zip(other).take_while(|(a, b)| a == b).count()
}
