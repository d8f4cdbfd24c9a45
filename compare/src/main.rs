//! Runs two programs on session files made by seed and compares what they print, byte for byte:
//!
//!     compare [--seeds A..B] --engine CMD --second PROGRAM [--keep DIR]
//!     compare [--seeds A..B] --looks CMD --second PROGRAM [--keep DIR]
//!     compare [--seeds A..B] --rewrite CMD --second PROGRAM [--keep DIR]
//!     compare [--seeds A..B] --clearing CMD --second PROGRAM [--keep DIR]
//!
//! CMD is a line for sh, and B is not included. Without seeds it is the fixed set, in which every
//! rule has to come up. The first file on which the two differ is made small and kept in DIR.
//! With --looks it is the calls that change nothing: CMD and `PROGRAM --looks` print what they
//! answer while the file runs. With --rewrite it is the writer: CMD and `PROGRAM --rewrite` print
//! the file's records, written anew. With --clearing it is the square: CMD and `PROGRAM --clearing`
//! print the lines of a session that keeps it, and then who owes whom.

mod bands;
mod clearing;
mod counts;
mod looks;
mod records;
mod rewrite;
mod shrink;
mod temper;

use counts::{Counts, Rules, Seen};
use records::LOOKED_AT;
use std::ops::Range;
use std::path::Path;
use std::process::{exit, ChildStdin, Command, ExitStatus, Stdio};
use std::sync::atomic::{AtomicBool, AtomicU64, Ordering::SeqCst};
use std::{env, fs, io, io::Read, io::Write, thread, time::Duration};

/// What is compared: the lines of sessions, without the square or with it, or of looks, or the bytes
/// of files written anew.
struct Subject {
    /// What the names of kept files begin with.
    kept: &'static str,
    files: &'static str,
    printed: &'static str,
    /// The second program's arguments.
    second: &'static [&'static str],
    fixed_set: Range<u64>,
    file: fn(u64) -> (&'static str, Vec<u8>),
    /// Files of these lengths come in two parts.
    in_parts: Range<usize>,
    count: fn(&mut Counts, &Seen),
    rules: &'static Rules,
    /// Says where what the engine prints and what the second program prints part.
    parting: fn(&[u8], &[u8]),
}

const SESSIONS: Subject = Subject {
    kept: "seed",
    files: "files",
    printed: "lines",
    second: &[],
    fixed_set: 0..2521,
    file: temper::session_file,
    in_parts: 0..0,
    count: Counts::session,
    rules: counts::RULES,
    parting: parting_line,
};

/// Seed 0 is left out: its trouble begins far behind what `looks` takes of a file.
const LOOKS: Subject = Subject {
    kept: "looks",
    files: "looks files",
    printed: "lines",
    second: &["--looks"],
    fixed_set: 1..361,
    file: temper::looks_file,
    in_parts: LOOKED_AT - 1_000..LOOKED_AT + 1_001,
    count: looks::count,
    rules: looks::RULES,
    parting: parting_line,
};

/// Without seed 0 too: what `rewrite` takes of it is like what it takes of other long files.
const REWRITES: Subject = Subject {
    kept: "rewrite",
    files: "files rewritten",
    printed: "bytes",
    second: &["--rewrite"],
    fixed_set: 1..721,
    file: temper::rewrite_file,
    in_parts: LOOKED_AT..usize::MAX,
    count: rewrite::count,
    rules: rewrite::RULES,
    parting: parting_byte,
};

/// Without seed 0, which has few members.
const CLEARING: Subject = Subject {
    kept: "clearing",
    files: "files with the square",
    printed: "lines",
    second: &["--clearing"],
    fixed_set: 1..281,
    file: temper::clearing_file,
    in_parts: 0..0,
    count: clearing::count,
    rules: clearing::RULES,
    parting: parting_line,
};

/// What a pipe holds can be read at once. So that `looks` and `rewrite` meet a short read too, a
/// file at least about as long as what they take comes in two parts.
fn feed(mut stdin: ChildStdin, file: &[u8], in_parts: bool) -> io::Result<()> {
    let (first, second) = file.split_at(file.len().min(LOOKED_AT) / 2);
    stdin.write_all(first)?;
    if in_parts {
        thread::sleep(Duration::from_millis(50));
    }
    stdin.write_all(second)
}
/// Says at which line the two part.
fn parting_line(engine: &[u8], second: &[u8]) {
    let lines = |printed| String::from_utf8_lossy(printed).split('\n').map(String::from).collect();
    let (engine, second): (Vec<String>, Vec<String>) = (lines(engine), lines(second));
    let same = engine.iter().zip(&second).take_while(|(one, other)| one == other).count();
    let line = |lines: &[String]| lines.get(same).map_or("nothing".into(), String::clone);
    println!("line {}, engine: {}", same + 1, line(&engine));
    println!("line {}, second: {}", same + 1, line(&second));
}

/// Says at which offset the two part, with the bytes from there.
fn parting_byte(engine: &[u8], second: &[u8]) {
    let same = engine.iter().zip(second).take_while(|(one, other)| one == other).count();
    for (name, printed) in [("engine", engine), ("second", second)] {
        let bytes: String = printed[same..].iter().take(16).map(|b| format!(" {b:02X}")).collect();
        let bytes = if bytes.is_empty() { " nothing" } else { &bytes };
        println!("offset {same}, {name}, of {} bytes:{bytes}", printed.len());
    }
}

struct Programs {
    subject: Subject,
    engine: String,
    second: String,
}

impl Programs {
    /// Feeds the file through a pipe, so that the program meets short reads.
    fn fed(&self, command: &mut Command, file: &[u8], out: &mut Vec<u8>) -> io::Result<ExitStatus> {
        let command = command.stdin(Stdio::piped()).stdout(Stdio::piped()).stderr(Stdio::null());
        let mut child = command.spawn()?;
        let (stdin, stdout) = (child.stdin.take(), child.stdout.take());
        let in_parts = self.subject.in_parts.contains(&file.len());
        thread::scope(|scope| {
            // A program that ends the walk early may stop reading: that is no failure.
            scope.spawn(move || stdin.map(|stdin| feed(stdin, file, in_parts)));
            stdout.map_or(Ok(0), |mut stdout| stdout.read_to_end(out))
        })?;
        child.wait()
    }

    /// What a program prints. One that fails says so in a last line, which no other program has.
    fn printed(&self, name: &str, command: &mut Command, file: &[u8]) -> Vec<u8> {
        let mut printed = Vec::new();
        match self.fed(command, file, &mut printed) {
            Ok(status) if status.success() => {}
            Ok(status) => printed.extend(format!("{name}: {status}\n").bytes()),
            Err(error) => printed.extend(format!("{name}: {error}\n").bytes()),
        }
        printed
    }

    /// What the second program prints with these arguments.
    fn second(&self, arguments: &[&str], file: &[u8]) -> Vec<u8> {
        self.printed("second", Command::new(&self.second).args(arguments), file)
    }

    /// What the engine prints and what the second program does, run side by side.
    fn run(&self, file: &[u8]) -> [Vec<u8>; 2] {
        thread::scope(|scope| {
            let second = scope.spawn(|| self.second(self.subject.second, file));
            let engine = format!("exec {}", self.engine);
            let engine = self.printed("engine", Command::new("sh").args(["-c", &engine]), file);
            [engine, second.join().expect("the thread ends")]
        })
    }

    /// Runs the seeds, several at a time; answers the counts and the lowest seed that differs.
    fn compare(&self, seeds: Range<u64>) -> (Counts, Option<u64>) {
        let (next, stop) = (AtomicU64::new(seeds.start), AtomicBool::new(false));
        let work = || {
            let (mut counts, mut found) = (Counts::default(), None);
            // Seeds are begun in order: when one differs, all below it are under way or done.
            while !stop.load(SeqCst) {
                let seed = next.fetch_add(1, SeqCst);
                if seed >= seeds.end {
                    break;
                }
                let (_, file) = (self.subject.file)(seed);
                let [engine, second] = self.run(&file);
                if engine != second {
                    found = Some(seed);
                    stop.store(true, SeqCst);
                }
                let session = |file: &[u8]| self.second(&[], file);
                let seen = Seen { file: &file, printed: &second, session: &session };
                (self.subject.count)(&mut counts, &seen);
            }
            (counts, found)
        };
        thread::scope(|scope| {
            let cores = thread::available_parallelism().map_or(1, usize::from);
            let workers: Vec<_> = (0..cores).map(|_| scope.spawn(work)).collect();
            let (mut all, mut lowest) = (Counts::default(), None);
            for worker in workers {
                let (counts, found) = worker.join().expect("the thread ends");
                all.join(counts);
                lowest = lowest.into_iter().chain(found).min();
            }
            (all, lowest)
        })
    }

    /// Keeps the file of a seed, made small, with what each program prints; says where they part.
    fn keep(&self, seed: u64, dir: &Path) -> io::Result<()> {
        let (temper, file) = (self.subject.file)(seed);
        println!("compare: seed {seed} ({temper}) differs; making it small");
        let differs = |file: &[u8]| {
            let [engine, second] = self.run(file);
            engine != second
        };
        let small = shrink::shrink(&file, &differs);
        let [engine, second] = self.run(&small);
        let path = dir.join(format!("{}-{seed}.session", self.subject.kept));
        fs::create_dir_all(dir)?;
        fs::write(&path, &small)?;
        fs::write(path.with_extension("engine"), &engine)?;
        fs::write(path.with_extension("second"), &second)?;
        println!("compare: {}: {} bytes of {}", path.display(), small.len(), file.len());
        (self.subject.parting)(&engine, &second);
        Ok(())
    }
}

fn quit(message: &str) -> ! {
    eprintln!("compare: {message}");
    exit(2)
}

fn main() {
    let (mut given, mut dir) = (None, String::from("."));
    let (engine, second) = (String::new(), String::new());
    let mut programs = Programs { subject: SESSIONS, engine, second };
    let mut words = env::args().skip(1);
    while let Some(word) = words.next() {
        let value = words.next().unwrap_or_default();
        match word.as_str() {
            "--seeds" => {
                let ends = value.split_once("..").map(|(from, to)| (from.parse(), to.parse()));
                let Some((Ok(from), Ok(to))) = ends else { quit("seeds are A..B") };
                given = Some(from..to);
            }
            "--engine" => (programs.subject, programs.engine) = (SESSIONS, value),
            "--looks" => (programs.subject, programs.engine) = (LOOKS, value),
            "--rewrite" => (programs.subject, programs.engine) = (REWRITES, value),
            "--clearing" => (programs.subject, programs.engine) = (CLEARING, value),
            "--second" => programs.second = value,
            "--keep" => dir = value,
            _ => quit(&format!("no option {word}")),
        }
    }
    if programs.engine.is_empty() || programs.second.is_empty() {
        quit("which? --engine, --looks, --rewrite or --clearing CMD, and --second PROGRAM");
    }

    let fixed = given.is_none();
    let seeds = given.unwrap_or(programs.subject.fixed_set.clone());
    let (counts, found) = programs.compare(seeds.clone());
    if let Some(seed) = found {
        programs.keep(seed, Path::new(&dir)).unwrap_or_else(|error| quit(&error.to_string()));
        exit(1)
    }
    let (mut never, strange) = counts.print(programs.subject.rules);
    never.retain(|_| fixed);
    never.iter().for_each(|rule| println!("compare: never came up: {rule}"));
    strange.iter().for_each(|rule| println!("compare: from both, and not in 01: {rule}"));
    let Subject { files, printed, .. } = programs.subject;
    let count = seeds.end.saturating_sub(seeds.start);
    println!("compare: {count} {files}, the same {printed} from both");
    exit(i32::from(!never.is_empty() || !strange.is_empty()))
}
