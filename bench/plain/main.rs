//! The jobs `group`, `walk`, `emit`, `play` and `make` as a plain Rust program does them, to measure `hem` by: nothing is
//! proved here.
//!
//! It answers every document as `hem` does, with the same text and status. With the last word `--times` it tells on
//! standard error how long each of its stages took.

mod bits;
mod canonical;
mod discipline;
mod document;
mod draws;
mod emit;
mod modtext;
mod order;
mod play;
mod protocol;
mod report;
mod system;
mod text;
mod walk;
mod words;

use document::{Document, SetupFault, check_tree, read_document, read_protocol_and_tree};
use order::Transactions;
use std::io::{Read, Write};
use std::process::ExitCode;
use std::time::Instant;
use system::System;
use text::{Fault, Tokens, place_of};
use words::{Asked, Job};

const MOST_BYTES: usize = 33_554_432;
/// How many firings are played where no count is given.
const MOST_PLAYED: u32 = 100_000;

/// Tells how long each stage takes, where that is wanted.
struct Watch {
    is_wanted: bool,
    begun: Instant,
}

impl Watch {
    fn new(is_wanted: bool) -> Watch {
        Watch { is_wanted, begun: Instant::now() }
    }

    fn tell(&mut self, stage: &str) {
        if self.is_wanted {
            eprintln!("{stage}: {:.3} s", self.begun.elapsed().as_secs_f64());
        }
        self.begun = Instant::now();
    }
}

fn setup_fault(bytes: &[u8], fault: SetupFault) -> (u8, String) {
    let (line, column) = place_of(bytes, fault.start);
    (7, format!("setup {line}:{column} {}\n", fault.cause))
}

fn text_fault(bytes: &[u8], fault: Fault) -> (u8, String) {
    let (line, column) = place_of(bytes, fault.start);
    (5, format!("text {line}:{column} {}\n", fault.cause))
}

/// The status and the text for the bytes of a document.
fn of_document(asked: Asked, bytes: &[u8], watch: &mut Watch) -> (u8, String) {
    let answer = match asked.job {
        Job::Emit => emit(bytes, watch),
        Job::Play => play(asked, bytes, watch),
        Job::Group | Job::Walk | Job::Make => of_work(asked, bytes, watch),
    };
    answer.unwrap_or_else(|fault| text_fault(bytes, fault))
}

/// The status and the text of a document with a work.
fn of_work(asked: Asked, bytes: &[u8], watch: &mut Watch) -> Result<(u8, String), Fault> {
    let mut document = read_document(bytes, asked.job == Job::Group)?;
    if let Some(refusal) = discipline::first_broken(&document.protocol) {
        return Ok((6, refusal.text(&document.protocol)));
    }
    if let Err(fault) = document.check() {
        return Ok(setup_fault(bytes, fault));
    }
    if let Some(count) = asked.count
        && let Err(fault) = draws::generate(&mut document, count, asked.seed)
    {
        return Ok(setup_fault(bytes, fault));
    }
    watch.tell("document");
    Ok(match asked.job {
        Job::Walk => walk(document, asked, watch),
        Job::Make => (0, canonical::document(&document, Tokens::new(bytes).next().is("use"))),
        _ => replay(&document, watch),
    })
}

/// The status and the text of the modules of a protocol on a tree.
fn emit(bytes: &[u8], watch: &mut Watch) -> Result<(u8, String), Fault> {
    let (protocol, nodes) = read_protocol_and_tree(bytes)?;
    if let Some(refusal) = discipline::first_broken(&protocol) {
        return Ok((6, refusal.text(&protocol)));
    }
    if let Err(fault) = check_tree(&nodes) {
        return Ok(setup_fault(bytes, fault));
    }
    watch.tell("document");
    let modules = emit::modules(&protocol, &nodes);
    watch.tell("modules");
    let text = modules.text();
    watch.tell("text");
    Ok((0, text))
}

/// The status and the text of a play.
fn play(asked: Asked, bytes: &[u8], watch: &mut Watch) -> Result<(u8, String), Fault> {
    let mut tokens = Tokens::new(bytes);
    let (modules, names) = modtext::read_modules(&mut tokens)?;
    let feed = modtext::read_feed(&mut tokens, &names)?;
    tokens.end()?;
    watch.tell("document");
    let text = play::play(&modules, &feed, asked.count.unwrap_or(MOST_PLAYED));
    watch.tell("play");
    Ok((0, text))
}

/// The status and the text of the walk of a lawful document.
fn walk(mut document: Document, asked: Asked, watch: &mut Watch) -> (u8, String) {
    let walk = walk::walk(&document, asked.seed);
    watch.tell("walk");
    let (system, fired, journal) = (walk.system, walk.fired, walk.journal);
    if asked.count.is_some() {
        return (0, report::summary(&document, &system));
    }
    document.history = journal;
    let transactions = Transactions::new(&document, fired);
    let order = transactions.normal_order();
    watch.tell("normal order");
    let printed = transactions.printed_order(&document, &order);
    watch.tell("printed order");
    let text = report::walked(&document, &system, &transactions, &printed);
    watch.tell("text");
    (0, text)
}

/// The status and the text of the history of a lawful document.
fn replay(document: &Document, watch: &mut Watch) -> (u8, String) {
    let mut system = System::new(document);
    let mut fired = Vec::with_capacity(document.history.len());
    for (place, firing) in (0..).zip(&document.history) {
        match system.step(document, firing, place) {
            Some(one) => fired.push(one),
            None => return (8, report::illegal(document, &system, place)),
        }
    }
    watch.tell("replay and numbers");
    let transactions = Transactions::new(document, fired);
    let order = transactions.normal_order();
    watch.tell("normal order");
    let printed = transactions.printed_order(document, &order);
    watch.tell("printed order");
    let text = report::done(document, &system, &transactions, &printed);
    watch.tell("text");
    (0, text)
}

fn answer(words: &[&str], watch: &mut Watch) -> (u8, String) {
    let Some(asked) = words::read(words) else {
        return (1, words::USAGE.to_string());
    };
    let mut bytes = Vec::new();
    let limit = MOST_BYTES as u64 + 1;
    if std::io::stdin().lock().take(limit).read_to_end(&mut bytes).is_err() {
        return (2, "read fault\n".to_string());
    }
    if bytes.len() > MOST_BYTES {
        return (4, "too long\n".to_string());
    }
    watch.tell("reading");
    of_document(asked, &bytes, watch)
}

fn main() -> ExitCode {
    let words: Vec<String> = std::env::args().skip(1).collect();
    let words: Vec<&str> = words.iter().map(String::as_str).collect();
    let is_wanted = words.last() == Some(&"--times");
    let mut watch = Watch::new(is_wanted);
    let (status, text) = answer(if is_wanted { &words[..words.len() - 1] } else { &words }, &mut watch);
    let written = std::io::stdout().lock().write_all(text.as_bytes());
    watch.tell("writing");
    match written {
        Ok(()) => ExitCode::from(status),
        Err(_) => ExitCode::from(3),
    }
}
