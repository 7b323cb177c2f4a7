//! The texts of answers.

use crate::document::{Document, Firing};
use crate::order::Transactions;
use crate::protocol::{Kind, Protocol};
use crate::system::{By, Lock, Message, Object, System};
use std::fmt::Write;

/// Writes to a string, which never fails.
macro_rules! put {
    ($text:expr, $($arguments:tt)*) => { let _ = write!($text, $($arguments)*); };
}

fn put_firing(text: &mut String, document: &Document, firing: &Firing) {
    put!(text, "{} {} {}", firing.line, firing.object, document.protocol.rule_names[firing.rule as usize]);
    if let Some(child) = firing.from {
        put!(text, " from {child}");
    }
    text.push('\n');
}

fn put_blocks(text: &mut String, document: &Document, transactions: &Transactions, printed: &[u32]) {
    put!(text, "blocks {}\n", printed.len());
    for &number in printed {
        put!(text, "block {number}\n");
        for place in transactions.in_normal_order(number) {
            put_firing(text, document, &document.history[place as usize]);
        }
    }
}

fn put_message(text: &mut String, protocol: &Protocol, message: Message) {
    put!(text, "{}:{}", protocol.messages[message.id as usize].0, message.value);
}

fn put_lock(text: &mut String, protocol: &Protocol, children: &[usize], lock: Option<Lock>, is_down: bool) {
    let Some(lock) = lock else {
        text.push_str("free");
        return;
    };
    match lock.by {
        By::Processor => text.push_str("cpu:"),
        By::Child(place) => {
            put!(text, "{}:", children[place]);
        }
        By::Parent => text.push_str("parent:"),
        By::Own => text.push_str("self:"),
    }
    put_message(text, protocol, lock.request);
    if is_down {
        text.push(':');
        for (k, place) in lock.awaited.iter().enumerate() {
            put!(text, "{}{}", if k > 0 { "," } else { "" }, children[place]);
        }
    }
}

fn put_object(text: &mut String, document: &Document, place: usize, object: &Object) {
    let protocol = &document.protocol;
    let node = &document.nodes[place];
    put!(text, "{place} {}", node.kind.name());
    for ((name, _), status) in protocol.part(node.kind).fields.iter().zip(&object.fields) {
        put!(text, " {name}={}", protocol.statuses[*status as usize]);
    }
    put!(text, " val={} up=", object.val);
    put_lock(text, protocol, &node.children, object.up, false);
    text.push_str(" down=");
    put_lock(text, protocol, &node.children, object.down, true);
    if node.kind != Kind::Leaf {
        text.push_str(" dir=");
        for (k, status) in object.dir.iter().enumerate() {
            put!(text, "{}{}", if k > 0 { "," } else { "" }, protocol.statuses[*status as usize]);
        }
    }
    text.push('\n');
    let lists = [
        ("uprq", &object.up_requests),
        ("uprs", &object.up_responses),
        ("down", &object.from_parent),
        ("req", &object.requests),
        ("ans", &object.answers),
    ];
    for (name, list) in lists.into_iter().filter(|(_, list)| !list.is_empty()) {
        put!(text, "{name} {place}");
        for message in list {
            text.push(' ');
            put_message(text, protocol, *message);
        }
        text.push('\n');
    }
}

fn put_state(text: &mut String, document: &Document, system: &System) {
    text.push_str("state\n");
    for (number, line) in system.lines.iter().enumerate() {
        put!(text, "line {number}\n");
        for (place, object) in line.iter().enumerate() {
            put_object(text, document, place, object);
        }
    }
    text.push_str("end\n");
}

/// The text where the history runs.
pub fn done(document: &Document, system: &System, transactions: &Transactions, printed: &[u32]) -> String {
    let mut text = String::from(if system.is_quiet() { "quiet\n" } else { "open\n" });
    put_blocks(&mut text, document, transactions, printed);
    put_state(&mut text, document, system);
    text
}

fn word_of_end(system: &System) -> &'static str {
    if system.is_quiet() { "quiet" } else { "stuck" }
}

/// The text of a walk, whose journal is the document's history.
pub fn walked(document: &Document, system: &System, transactions: &Transactions, printed: &[u32]) -> String {
    let mut text = format!("{}\njournal {}\n", word_of_end(system), document.history.len());
    for firing in &document.history {
        put_firing(&mut text, document, firing);
    }
    put_blocks(&mut text, document, transactions, printed);
    put_state(&mut text, document, system);
    text
}

/// The text of a walk with generated requests.
pub fn summary(document: &Document, system: &System) -> String {
    let requests: usize = document.work.entries.iter().map(|entry| entry.requests.len()).sum();
    let answers: usize = system.lines.iter().flatten().map(|object| object.answers.len()).sum();
    format!("{}\nrequests {requests}\nanswers {answers}\n", word_of_end(system))
}

/// The text where the firing at this place isn't possible.
pub fn illegal(document: &Document, system: &System, place: u32) -> String {
    let mut text = format!("illegal {place}\n");
    put_state(&mut text, document, system);
    text
}
