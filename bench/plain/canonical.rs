//! Canonical texts of protocols, trees and works.

use crate::document::{Document, Request};
use crate::protocol::{Assign, Atom, Class, Goal, Kind, Need, Origin, Part, Protocol, Rule, Side, StatusSet, Take, Value};
use std::collections::BTreeMap;
use std::fmt::Write;

/// Writes to a string, which never fails.
macro_rules! put {
    ($text:expr, $($arguments:tt)*) => { let _ = write!($text, $($arguments)*); };
}

fn class(class: Class) -> &'static str {
    match class {
        Class::ExtReq => "ext_req",
        Class::ExtRsp => "ext_rsp",
        Class::UpReq => "up_req",
        Class::UpRsp => "up_rsp",
        Class::DownReq => "down_req",
        Class::DownRsp => "down_rsp",
    }
}

fn need(need: Need) -> &'static str {
    match need {
        Need::Any => "any",
        Need::Free => "free",
        Need::Child => "child",
        Need::Parent => "parent",
        Need::Own => "self",
    }
}

fn side(side: Side) -> &'static str {
    match side {
        Side::Up => "up",
        Side::Down => "down",
    }
}

fn value(value: Value) -> &'static str {
    match value {
        Value::Val => "val",
        Value::Msg => "msg",
        Value::Kept => "kept",
        Value::Rs => "rs",
        Value::Zero => "0",
    }
}

fn set(protocol: &Protocol, set: StatusSet) -> String {
    let names = protocol.statuses.iter().enumerate().filter(|(place, _)| set.has(*place as u8));
    names.map(|(_, name)| name.as_str()).collect::<Vec<_>>().join(" ")
}

fn atom(protocol: &Protocol, part: &Part, atom: Atom) -> String {
    match atom {
        Atom::Field(field, chosen) => format!("{} in {}", part.fields[field as usize].0, set(protocol, chosen)),
        Atom::Me(chosen) => format!("me in {}", set(protocol, chosen)),
        Atom::KidsAll(chosen) => format!("kids all {}", set(protocol, chosen)),
        Atom::KidsAny(chosen) => format!("kids any {}", set(protocol, chosen)),
        Atom::OthersAll(chosen) => format!("others all {}", set(protocol, chosen)),
        Atom::OthersAny(chosen) => format!("others any {}", set(protocol, chosen)),
        Atom::Asked(id) => format!("asked {}", protocol.messages[id as usize].0),
    }
}

fn assign(protocol: &Protocol, part: &Part, assign: Assign) -> String {
    let status = |status: u8| protocol.statuses[status as usize].as_str();
    match assign {
        Assign::Field(field, to) => format!("{} := {}", part.fields[field as usize].0, status(to)),
        Assign::Val(to) => format!("val := {}", value(to)),
        Assign::Me(to) => format!("me := {}", status(to)),
        Assign::Targets(to) => format!("targets := {}", status(to)),
    }
}

fn put_rule(text: &mut String, protocol: &Protocol, part: &Part, rule: &Rule) {
    let message = |id: u8| protocol.messages[id as usize].0.as_str();
    let take = match rule.take {
        Take::Me(id) => format!("me {}", message(id)),
        Take::Parent(id) => format!("parent {}", message(id)),
        Take::Kids(id) => format!("kids {}", message(id)),
        Take::Nothing => "none".to_string(),
    };
    put!(text, "rule {} take {take}", protocol.rule_names[rule.name as usize]);
    put!(text, " need up {} down {}", need(rule.up), need(rule.down));
    if !rule.guard.is_empty() {
        let atoms: Vec<String> = rule.guard.iter().map(|one| atom(protocol, part, *one)).collect();
        put!(text, " when {}", atoms.join(", "));
    }
    if !rule.sets.is_empty() {
        let sets: Vec<String> = rule.sets.iter().map(|one| assign(protocol, part, *one)).collect();
        put!(text, " set {}", sets.join(", "));
    }
    if let Some(freed) = rule.free {
        put!(text, " free {}", side(freed));
    }
    if let Some((locked, origin)) = rule.lock {
        let origin = match origin {
            Origin::Child => "child",
            Origin::Parent => "parent",
            Origin::Own => "self",
        };
        put!(text, " lock {} {origin}", side(locked));
    }
    if let Some(send) = rule.send {
        let goal = match send.goal {
            Goal::Me => "me".to_string(),
            Goal::Parent => "parent".to_string(),
            Goal::Kids(chosen) => format!("kids in {}", set(protocol, chosen)),
            Goal::Others(chosen) => format!("others in {}", set(protocol, chosen)),
        };
        put!(text, " send {goal} {} {}", message(send.message), value(send.value));
    }
    text.push_str(" end\n");
}

fn put_protocol(text: &mut String, protocol: &Protocol) {
    put!(text, "protocol {}\nstatus {}\n", protocol.name, protocol.statuses.join(" "));
    for (name, its) in &protocol.messages {
        put!(text, "message {name} {}\n", class(*its));
    }
    for kind in [Kind::Root, Kind::Mid, Kind::Leaf] {
        let part = protocol.part(kind);
        put!(text, "kind {}\n", kind.name());
        for (name, status) in &part.fields {
            put!(text, "field {name} init {}\n", protocol.statuses[*status as usize]);
        }
        if let Some(status) = part.dir {
            put!(text, "dir init {}\n", protocol.statuses[status as usize]);
        }
        for rule in &part.rules {
            put_rule(text, protocol, part, rule);
        }
        text.push_str("end\n");
    }
    text.push_str("end\n");
}

fn put_node(text: &mut String, document: &Document, object: usize) {
    let node = &document.nodes[object];
    text.push_str(node.kind.name());
    for (k, child) in node.children.iter().enumerate() {
        text.push(if k == 0 { '(' } else { ' ' });
        put_node(text, document, *child);
    }
    if !node.children.is_empty() {
        text.push(')');
    }
}

fn put_work(text: &mut String, document: &Document) {
    let work = &document.work;
    let mut lists: BTreeMap<(u32, u32), Vec<&Request>> = BTreeMap::new();
    for entry in &work.entries {
        lists.entry((entry.object, entry.line)).or_default().extend(&entry.requests);
    }
    put!(text, "work lines {} self {}\n", work.lines, work.self_count);
    for ((object, line), requests) in lists.into_iter().filter(|(_, requests)| !requests.is_empty()) {
        put!(text, "at {object} line {line}");
        for request in requests {
            put!(text, " {} {}", document.protocol.messages[request.message as usize].0, request.value);
        }
        text.push('\n');
    }
    text.push_str("end\n");
}

/// The document of a protocol, a tree and a work; `is_used` says that the protocol is named by `use`.
pub fn document(document: &Document, is_used: bool) -> String {
    let mut text = String::new();
    if is_used {
        put!(text, "use {}\n", document.protocol.name);
    } else {
        put_protocol(&mut text, &document.protocol);
    }
    text.push_str("tree ");
    put_node(&mut text, document, 0);
    text.push('\n');
    put_work(&mut text, document);
    text
}
