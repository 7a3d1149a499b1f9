//! Holds a program that speaks as `answers` does against the original, or writes a sample of the
//! original's answers.
//!
//!     compare against PROGRAM [ARGUMENT...]
//!     compare sample
//!
//! Exit status: 0 nothing differs, 1 something differs, 2 it could not be run.

mod inputs;
mod kinds;

use kinds::{Kind, Outcome, KINDS};
use std::io::{BufRead, BufReader, BufWriter, Error, Result, Write};
use std::process::{Command, ExitCode, Stdio};
use std::thread;

/// Of the differences of a kind, as many are shown.
const SHOWN: u64 = 20;

fn main() -> ExitCode {
    // The original's panics are counted, and would fill the screen; the driver's own stay loud.
    let loud = std::panic::take_hook();
    std::panic::set_hook(Box::new(move |panic| {
        if !panic
            .location()
            .is_some_and(|place| place.file().starts_with("original/"))
        {
            loud(panic);
        }
    }));
    let arguments: Vec<String> = std::env::args().skip(1).collect();
    let status = match arguments.iter().map(String::as_str).collect::<Vec<_>>()[..] {
        ["against", program, ref more @ ..] => against(program, more),
        ["sample"] => sample(),
        _ => Err(Error::other(
            "usage: compare against PROGRAM [ARGUMENT...] | compare sample",
        )),
    };
    ExitCode::from(status.unwrap_or_else(|error| {
        eprintln!("compare: {error}");
        2
    }))
}

/// Writes `K HEXBYTES TAB B COUNT W WCOUNT RECORD` for each text of the sample that is compared.
fn sample() -> Result<u8> {
    let mut lines = String::new();
    for kind in &KINDS {
        for text in inputs::sample(kind) {
            let apart = skipped(kind, &text) || (kind.wide)(&text);
            if let (false, Outcome::Answered(words)) = (apart, (kind.read)(&text)) {
                let hex: String = text.iter().map(|byte| format!("{byte:02x}")).collect();
                lines += &format!("{} {hex}\t{words}\n", kind.letter);
            }
        }
    }
    std::io::stdout().write_all(lines.as_bytes())?;
    Ok(0)
}

fn skipped(kind: &Kind, text: &[u8]) -> bool {
    text.iter().any(|byte| kind.skip.contains(byte))
}

fn against(program: &str, arguments: &[&str]) -> Result<u8> {
    println!("compared: number and count of both readers, and the record but for a time's digits");
    println!(
        "wide:     durations with a part tried at a run above 4,294,967,295: the original panics;"
    );
    println!("          `too big` are those of them to which ours answers 2");
    println!("panicked: other inputs on which the original panics, outside the domain");
    println!("skipped:  durations with a comma or a point");
    println!("            compared    differ      wide   too big  panicked   skipped");
    let mut total = Tally::default();
    for kind in &KINDS {
        let tally = compare(kind, program, arguments)?;
        tally.print(kind.name);
        total.add(&tally);
    }
    total.print("all");
    println!("{} compared, {} differ", total.compared, total.differ);
    Ok(u8::from(total.differ > 0))
}

/// Runs the program once over all inputs of a kind. One thread feeds it and this one reads its
/// answers; both make the inputs for themselves, in the same order, so that none has to be kept.
fn compare(kind: &'static Kind, program: &str, arguments: &[&str]) -> Result<Tally> {
    let mut child = Command::new(program)
        .args(arguments)
        .stdin(Stdio::piped())
        .stdout(Stdio::piped())
        .spawn()
        .map_err(|error| Error::other(format!("{program}: {error}")))?;
    let mut input = BufWriter::with_capacity(1 << 16, child.stdin.take().expect("piped"));
    let mut output = BufReader::with_capacity(1 << 16, child.stdout.take().expect("piped"));
    let feeder = thread::spawn(move || {
        let mut line = Vec::new();
        // A program that stops early is noticed at its missing answers: a failed write only ends
        // the writing.
        let mut listening = true;
        inputs::all(kind, &mut |text| {
            line.clear();
            line.extend_from_slice(&[kind.letter as u8, b' ']);
            line.extend_from_slice(text);
            line.push(b'\n');
            listening = listening && input.write_all(&line).is_ok();
        });
    });
    let mut answer = Vec::new();
    let mut next = || {
        answer.clear();
        output
            .read_until(b'\n', &mut answer)
            .expect("the program's output can be read");
        String::from_utf8_lossy(answer.strip_suffix(b"\n").unwrap_or(&answer)).into_owned()
    };
    let mut tally = Tally::default();
    inputs::all(kind, &mut |text| tally.count(kind, text, &next()));
    let extra = next();
    if !extra.is_empty() {
        tally.differs(&format!("there are more answers than inputs: {extra}"));
    }
    feeder.join().expect("the feeding thread ends");
    let status = child.wait()?;
    if !status.success() {
        tally.differs(&format!("the program ended with {status}"));
    }
    Ok(tally)
}

/// The counts of a kind, or of all kinds.
#[derive(Default)]
struct Tally {
    compared: u64,
    differ: u64,
    wide: u64,
    too_big: u64,
    panicked: u64,
    skipped: u64,
}

impl Tally {
    fn count(&mut self, kind: &Kind, text: &[u8], ours: &str) {
        if skipped(kind, text) {
            self.skipped += 1;
            return;
        }
        let answer = without_ours(ours);
        match ((kind.wide)(text), (kind.read)(text)) {
            (true, Outcome::Panicked) => {
                self.wide += 1;
                self.too_big += u64::from(answer.as_deref() == Some("2 0 2 0 -"));
            }
            // The rule names it and the original reads it: a difference, so that the rule hides nothing.
            (true, Outcome::Answered(words)) => {
                let text = text.escape_ascii();
                self.differs(&format!(
                    "\"{text}\" isn't wide: the original reads {words}"
                ));
            }
            (false, Outcome::Panicked) => self.panicked += 1,
            (false, Outcome::Answered(words)) => {
                self.compared += 1;
                if answer.as_ref() != Some(&words) {
                    let text = text.escape_ascii();
                    let both = format!("original: {words}\n      ours:     {ours}");
                    self.differs(&format!("{} \"{text}\"\n      {both}", kind.letter));
                }
            }
        }
    }

    fn differs(&mut self, what: &str) {
        self.differ += 1;
        if self.differ <= SHOWN {
            println!("  differs: {what}");
        }
    }

    fn add(&mut self, other: &Tally) {
        self.compared += other.compared;
        self.differ += other.differ;
        self.wide += other.wide;
        self.too_big += other.too_big;
        self.panicked += other.panicked;
        self.skipped += other.skipped;
    }

    fn print(&self, name: &str) {
        let Tally {
            compared,
            differ,
            wide,
            too_big,
            panicked,
            skipped,
        } = self;
        println!("{name:9} {compared:10}{differ:10}{wide:10}{too_big:10}{panicked:10}{skipped:10}");
    }
}

/// `B COUNT VERDICT W WCOUNT RECORD` without what the original doesn't have: the verdict, and the
/// last word of a time, the digits of its fraction. Nothing if these aren't what they should be.
fn without_ours(answer: &str) -> Option<String> {
    match answer.splitn(4, ' ').collect::<Vec<_>>()[..] {
        [number, count, "settled" | "open", rest] => {
            Some(format!("{number} {count} {}", without_digits(rest)?))
        }
        _ => None,
    }
}

fn without_digits(rest: &str) -> Option<&str> {
    if !rest.contains(" time ") {
        return Some(rest);
    }
    let (others, digits) = rest.rsplit_once(' ')?;
    matches!(digits.as_bytes(), [b'0'..=b'9']).then_some(others)
}
