//! The examples: those kept as files, and the larger ones made here.

use std::fs;
use std::path::Path;

/// A settings file and the whole output it has to give.
pub struct Example {
    pub name: String,
    pub file: Vec<u8>,
    pub output: Vec<u8>,
}

fn example(name: &str, file: String, output: String) -> Example {
    Example { name: name.to_string(), file: file.into_bytes(), output: output.into_bytes() }
}

/// The kept examples: those of the directory and those of `long` in it.
pub fn kept(directory: &Path) -> Result<Vec<Example>, String> {
    let mut examples = kept_in(directory)?;
    examples.extend(kept_in(&directory.join("long"))?);
    Ok(examples)
}

/// Every `name.txt` of the directory with its `name.out`, in order of name.
fn kept_in(directory: &Path) -> Result<Vec<Example>, String> {
    let fault = |path: &Path, fault: std::io::Error| format!("{}: {fault}", path.display());
    let mut paths = Vec::new();
    for entry in fs::read_dir(directory).map_err(|error| fault(directory, error))? {
        let path = entry.map_err(|error| fault(directory, error))?.path();
        if path.extension().is_some_and(|end| end == "txt") {
            paths.push(path);
        }
    }
    paths.sort();
    if paths.is_empty() {
        return Err(format!("{}: no examples", directory.display()));
    }
    let mut examples = Vec::new();
    for path in paths {
        let out = path.with_extension("out");
        examples.push(Example {
            name: path.file_stem().unwrap_or_default().to_string_lossy().into_owned(),
            file: fs::read(&path).map_err(|error| fault(&path, error))?,
            output: fs::read(&out).map_err(|error| fault(&out, error))?,
        });
    }
    Ok(examples)
}

/// The larger examples.
pub fn made() -> Vec<Example> {
    let mut examples = vec![
        longest_schedule(),
        turn_too_many("turns-16385", "0", 5),
        turn_too_many("turns-16385-not-below-procs", "7", 5),
        turn_too_many("turns-16385-nine-digits", "999999999", 5),
        longest_file(),
    ];
    examples.extend([1, 2, 3, 4, 5, 64].into_iter().zip([0, 1, 2, 2, 3, 6]).map(doublings));
    examples.extend([1, 2, 3, 4, 5, 6, 21, 22, 63, 64].map(up_and_down));
    examples
}

fn alone() -> String {
    "algo=mcs\nprocs=1\nhome=0\nticket=0\nbudget=16384\np0=1000,0\nturns=".to_string()
}

/// 16384 turns of one processor: 1000 passages of four turns, then idle.
fn longest_schedule() -> Example {
    let file = format!("{}{}\n", alone(), vec!["0"; 16384].join(","));
    let events = vec!["j0,g0,r0"; 1000].join(",");
    let output = format!("turns=16384\nstop=0\nremote=0\np0=1000,0,0,0,12384\nevents={events}\n");
    example("turns-16384", file, output)
}

/// A 16385th turn: refused at its first digit, also when it is not below procs.
fn turn_too_many(name: &str, turn: &str, number: usize) -> Example {
    let full = format!("{}{},", alone(), vec!["0"; 16384].join(","));
    let place = full.len();
    example(name, format!("{full}{turn}\n"), format!("refused={number}\nplace={place}\n"))
}

/// The longest accepted file: processor 63 arrives and waits for the others.
fn longest_file() -> Example {
    let mut file = "algo=central\nprocs=64\nhome=63\nticket=65535\nbudget=16384\n".to_string();
    let mut output = "turns=16384\nstop=0\nremote=0\n".to_string();
    for processor in 0..64 {
        file.push_str(&format!("p{processor}=1000,255\n"));
        let spins = if processor == 63 { 16383 } else { 0 };
        output.push_str(&format!("p{processor}=0,0,0,{spins},0\n"));
    }
    file.push_str(&format!("turns={}\n", vec!["63"; 16384].join(",")));
    output.push_str("events=a63\n");
    assert_eq!(file.len(), 50036);
    example("longest-file", file, output)
}

/// R for P: with round-robin turns no read is made twice, and one passage of
/// each of P processors has R remote references.
fn doublings((procs, r): (usize, usize)) -> Example {
    let rows = if r == 0 { 1 } else { 2 * r };
    let each = |text: &dyn Fn(usize) -> String| (0..procs).map(text).collect::<Vec<String>>();
    let plans = each(&|processor| format!("p{processor}=1,0\n")).concat();
    let row = each(&|processor| processor.to_string()).join(",");
    let schedule = vec![row; rows].join(",");
    let records = each(&|processor| format!("p{processor}=1,{r},{r},0,0\n")).concat();
    let arrive = each(&|processor| format!("a{processor}")).join(",");
    let leave = each(&|processor| format!("l{processor}")).join(",");
    let file = format!(
        "algo=dissem\nprocs={procs}\nhome=0\nticket=0\nbudget=16384\n{plans}turns={schedule}\n"
    );
    let output = format!(
        "turns={}\nstop=0\nremote={}\n{records}events={arrive},{leave}\n",
        rows * procs,
        r * procs
    );
    example(&format!("dissem-r-for-{procs}"), file, output)
}

/// The tree barrier without a spin: the processors come from the last to the
/// first, each with its whole arrival, then from the first to the last, each
/// with its whole wake-up. An episode has 2P - 2 remote references.
fn up_and_down(procs: usize) -> Example {
    let below = |first: usize, count: usize| (first..first + count).filter(|&i| i < procs).count();
    let (arriving, woken) = (|i: usize| below(4 * i + 1, 4), |i: usize| below(2 * i + 1, 2));
    // One turn tells the parent, one reads the sense; 0 has neither.
    let parent = |i: usize| usize::from(i > 0);
    let up = (0..procs).rev().flat_map(|i| vec![i; arriving(i) + 1 + parent(i)]);
    let down = (0..procs).flat_map(|i| vec![i; parent(i) + woken(i)]);
    let turns: Vec<String> = up.chain(down).map(|i| i.to_string()).collect();
    let plans: String = (0..procs).map(|i| format!("p{i}=1,0\n")).collect();
    let record = |i: usize| format!("p{i}=1,{0},{0},0,0\n", parent(i) + woken(i));
    let records: String = (0..procs).map(record).collect();
    let arrive: Vec<String> = (0..procs).rev().map(|i| format!("a{i}")).collect();
    let leave: Vec<String> = (0..procs).map(|i| format!("l{i}")).collect();
    let file = format!(
        "algo=tree\nprocs={procs}\nhome=0\nticket=0\nbudget=16384\n{plans}turns={}\n",
        turns.join(",")
    );
    let output = format!(
        "turns={}\nstop=0\nremote={}\n{records}events={},{}\n",
        turns.len(),
        2 * procs - 2,
        arrive.join(","),
        leave.join(",")
    );
    example(&format!("tree-up-and-down-{procs}"), file, output)
}
