//! Whole documents: their reader, and the rules on trees and works.

use crate::protocol::{Class, Kind, MessageId, Protocol, RuleId};
use crate::text::{Fault, TokenKind, Tokens, number};

const MOST_OBJECTS: usize = 64;
const MOST_CHILDREN: usize = 8;
const MOST_LEVELS: usize = 8;
const MOST_LINES: u32 = 16;
const MOST_SELF: u32 = 1000;
const MOST_REQUESTS: usize = 100_000;
const MOST_STARTS: usize = 200_000;
const MOST_FIRINGS: usize = 1_000_000;

/// The first rule of trees and works that is broken: where, and which.
pub struct SetupFault {
    pub start: usize,
    pub cause: &'static str,
}

pub struct Node {
    pub kind: Kind,
    pub parent: Option<usize>,
    pub children: Vec<usize>,
    pub level: usize,
    start: usize,
}

#[derive(Clone, Copy)]
pub struct Request {
    pub message: MessageId,
    pub value: u64,
    start: usize,
}

impl Request {
    pub fn generated(message: MessageId, value: u64) -> Request {
        Request { message, value, start: 0 }
    }
}

pub struct Entry {
    pub object: u32,
    object_start: usize,
    pub line: u32,
    line_start: usize,
    pub requests: Vec<Request>,
}

impl Entry {
    pub fn generated(object: u32, line: u32, requests: Vec<Request>) -> Entry {
        Entry { object, object_start: 0, line, line_start: 0, requests }
    }
}

pub struct Work {
    start: usize,
    pub lines: u32,
    lines_start: usize,
    pub self_count: u32,
    self_start: usize,
    pub entries: Vec<Entry>,
}

#[derive(Clone, Copy)]
pub struct Firing {
    pub line: u32,
    pub object: u32,
    pub rule: RuleId,
    pub from: Option<u32>,
}

pub struct Document {
    pub protocol: Protocol,
    pub nodes: Vec<Node>,
    pub work: Work,
    pub history: Vec<Firing>,
}

fn read_tree(tokens: &mut Tokens) -> Result<Vec<Node>, Fault> {
    tokens.word("tree")?;
    let start = tokens.word("root")?.start;
    tokens.sign("(")?;
    let mut nodes = vec![Node { kind: Kind::Root, parent: None, children: Vec::new(), level: 1, start }];
    let mut open = vec![0];
    while let Some(parent) = open.last().copied() {
        let token = tokens.next();
        if token.is_sign(")") && !nodes[parent].children.is_empty() {
            open.pop();
            continue;
        }
        let kind = match token {
            token if token.is("mid") => Kind::Mid,
            token if token.is("leaf") => Kind::Leaf,
            token => return Err(token.expected()),
        };
        let here = nodes.len();
        nodes[parent].children.push(here);
        let level = open.len() + 1;
        nodes.push(Node { kind, parent: Some(parent), children: Vec::new(), level, start: token.start });
        if kind == Kind::Mid {
            tokens.sign("(")?;
            open.push(here);
        }
    }
    Ok(nodes)
}

fn read_entry<'a>(tokens: &mut Tokens<'a>, protocol: &Protocol) -> Result<(Entry, bool), Fault> {
    let (object, object_start) = tokens.number()?;
    tokens.word("line")?;
    let (line, line_start) = tokens.number()?;
    let mut requests = Vec::new();
    let another = loop {
        let token = tokens.next();
        if token.is("at") || token.is("end") {
            break token.is("at");
        }
        if token.kind != TokenKind::Word {
            return Err(token.expected());
        }
        let message = protocol.message(token.text).ok_or_else(|| token.unknown())?;
        let value = tokens.value()?;
        requests.push(Request { message, value, start: token.start });
    };
    Ok((Entry { object, object_start, line, line_start, requests }, another))
}

fn read_work(tokens: &mut Tokens, protocol: &Protocol) -> Result<Work, Fault> {
    let start = tokens.word("work")?.start;
    tokens.word("lines")?;
    let (lines, lines_start) = tokens.number()?;
    tokens.word("self")?;
    let (self_count, self_start) = tokens.number()?;
    let mut entries = Vec::new();
    let mut another = tokens.one_of(&[("at", true), ("end", false)])?;
    while another {
        let (entry, more) = read_entry(tokens, protocol)?;
        entries.push(entry);
        another = more;
    }
    Ok(Work { start, lines, lines_start, self_count, self_start, entries })
}

fn read_history(tokens: &mut Tokens, protocol: &Protocol) -> Result<Vec<Firing>, Fault> {
    tokens.word("history")?;
    let mut firings = Vec::new();
    let mut token = tokens.next();
    while !token.is("end") {
        if token.kind == TokenKind::Number && firings.len() >= MOST_FIRINGS {
            return Err(token.fault("too many"));
        }
        let line = number(token)?;
        let (object, _) = tokens.number()?;
        let rule = tokens.used(|name| protocol.rule(name))?;
        let mut from = None;
        token = tokens.next();
        if token.is("from") {
            from = Some(tokens.number()?.0);
            token = tokens.next();
        }
        firings.push(Firing { line, object, rule, from });
    }
    Ok(firings)
}

/// Reads a document with a history, or one that ends with its work.
pub fn read_document(bytes: &[u8], has_history: bool) -> Result<Document, Fault> {
    let mut tokens = Tokens::new(bytes);
    let protocol = Protocol::read(&mut tokens)?;
    let nodes = read_tree(&mut tokens)?;
    let work = read_work(&mut tokens, &protocol)?;
    let history = if has_history { read_history(&mut tokens, &protocol)? } else { Vec::new() };
    tokens.end()?;
    Ok(Document { protocol, nodes, work, history })
}

/// Reads a protocol and a tree, and nothing after them.
pub fn read_protocol_and_tree(bytes: &[u8]) -> Result<(Protocol, Vec<Node>), Fault> {
    let mut tokens = Tokens::new(bytes);
    let protocol = Protocol::read(&mut tokens)?;
    let nodes = read_tree(&mut tokens)?;
    tokens.end()?;
    Ok((protocol, nodes))
}

fn ensure(holds: bool, start: usize, cause: &'static str) -> Result<(), SetupFault> {
    if holds { Ok(()) } else { Err(SetupFault { start, cause }) }
}

/// Tries the rules on trees, in order.
pub fn check_tree(nodes: &[Node]) -> Result<(), SetupFault> {
    let mut children = vec![0; nodes.len()];
    for (place, node) in nodes.iter().enumerate() {
        ensure(place < MOST_OBJECTS, node.start, "objects")?;
        if let Some(parent) = node.parent {
            children[parent] += 1;
            ensure(children[parent] <= MOST_CHILDREN, node.start, "children")?;
        }
        ensure(node.level <= MOST_LEVELS, node.start, "levels")?;
    }
    Ok(())
}

impl Document {
    /// Tries the rules on trees and works, in order.
    pub fn check(&self) -> Result<(), SetupFault> {
        check_tree(&self.nodes)?;
        self.check_work()
    }

    fn check_work(&self) -> Result<(), SetupFault> {
        let work = &self.work;
        ensure((1..=MOST_LINES).contains(&work.lines), work.lines_start, "lines")?;
        ensure(work.self_count <= MOST_SELF, work.self_start, "self")?;
        let mut count = 0;
        for entry in &work.entries {
            let node = self.nodes.get(entry.object as usize);
            ensure(node.is_some_and(|node| node.kind == Kind::Leaf), entry.object_start, "object")?;
            ensure(entry.line < work.lines, entry.line_start, "line")?;
            for request in &entry.requests {
                let class = self.protocol.class(request.message);
                ensure(class == Class::ExtReq, request.start, "request")?;
                count += 1;
                ensure(count <= MOST_REQUESTS, request.start, "requests")?;
            }
        }
        self.check_starts(count)
    }

    /// Tries the rule on starts for a work of so many requests.
    fn check_starts(&self, requests: usize) -> Result<(), SetupFault> {
        let starts = requests + self.work.self_count as usize * self.nodes.len() * self.work.lines as usize;
        ensure(starts <= MOST_STARTS, self.work.start, "starts")
    }

    /// Tries the rules for a lawful work that gets so many requests more.
    pub fn check_count(&self, count: u32) -> Result<(), SetupFault> {
        let requests = self.work.entries.iter().map(|entry| entry.requests.len()).sum::<usize>() + count as usize;
        ensure(requests <= MOST_REQUESTS, self.work.start, "requests")?;
        self.check_starts(requests)
    }
}
