//! Protocols, and their reader.

use crate::text::{Fault, Token, Tokens, new_name};
use std::collections::HashMap;

const MOST_STATUSES: usize = 4;
const MOST_MESSAGES: usize = 64;
const MOST_FIELDS: usize = 3;
const MOST_RULES: usize = 64;
const MOST_ATOMS: usize = 16;
const MOST_SETS: usize = 8;

/// The texts of the protocols that `use` names.
const SHIPPED: [(&str, &str); 4] = [
    ("msi_inclusive", include_str!(concat!(env!("SHIPPED_TEXTS"), "/msi_inclusive"))),
    ("mesi_inclusive", include_str!(concat!(env!("SHIPPED_TEXTS"), "/mesi_inclusive"))),
    ("msi_noninclusive", include_str!(concat!(env!("SHIPPED_TEXTS"), "/msi_noninclusive"))),
    ("mesi_noninclusive", include_str!(concat!(env!("SHIPPED_TEXTS"), "/mesi_noninclusive"))),
];

pub type MessageId = u8;
pub type Status = u8;
pub type RuleId = u32;

#[derive(Clone, Copy, PartialEq, Eq)]
pub enum Class {
    ExtReq,
    ExtRsp,
    UpReq,
    UpRsp,
    DownReq,
    DownRsp,
}

impl Class {
    pub fn is_request(self) -> bool {
        matches!(self, Class::ExtReq | Class::UpReq | Class::DownReq)
    }
}

#[derive(Clone, Copy, PartialEq, Eq)]
pub enum Kind {
    Root,
    Mid,
    Leaf,
}

impl Kind {
    pub fn name(self) -> &'static str {
        match self {
            Kind::Root => "root",
            Kind::Mid => "mid",
            Kind::Leaf => "leaf",
        }
    }
}

#[derive(Clone, Copy)]
pub enum Take {
    Me(MessageId),
    Parent(MessageId),
    Kids(MessageId),
    Nothing,
}

#[derive(Clone, Copy, PartialEq, Eq)]
pub enum Need {
    Any,
    Free,
    Child,
    Parent,
    Own,
}

#[derive(Clone, Copy)]
pub struct StatusSet(pub u8);

impl StatusSet {
    pub fn has(self, status: Status) -> bool {
        self.0 >> status & 1 == 1
    }
}

#[derive(Clone, Copy)]
pub enum Atom {
    Field(u8, StatusSet),
    Me(StatusSet),
    KidsAll(StatusSet),
    KidsAny(StatusSet),
    OthersAll(StatusSet),
    OthersAny(StatusSet),
    Asked(MessageId),
}

#[derive(Clone, Copy)]
pub enum Value {
    Val,
    Msg,
    Kept,
    Rs,
    Zero,
}

#[derive(Clone, Copy)]
pub enum Assign {
    Field(u8, Status),
    Val(Value),
    Me(Status),
    Targets(Status),
}

#[derive(Clone, Copy, PartialEq, Eq)]
pub enum Side {
    Up,
    Down,
}

#[derive(Clone, Copy)]
pub enum Origin {
    Child,
    Parent,
    Own,
}

#[derive(Clone, Copy)]
pub enum Goal {
    Me,
    Parent,
    Kids(StatusSet),
    Others(StatusSet),
}

#[derive(Clone, Copy)]
pub struct Send {
    pub goal: Goal,
    pub message: MessageId,
    pub value: Value,
}

pub struct Rule {
    pub name: RuleId,
    pub take: Take,
    pub up: Need,
    pub down: Need,
    pub guard: Vec<Atom>,
    pub sets: Vec<Assign>,
    pub free: Option<Side>,
    pub lock: Option<(Side, Origin)>,
    pub send: Option<Send>,
}

/// What a protocol says of one kind of object.
pub struct Part {
    pub fields: Vec<(String, Status)>,
    pub dir: Option<Status>,
    /// The rules in the order of the text.
    pub rules: Vec<Rule>,
    /// For each number of a name the place of the rule of that name.
    rule_at: Vec<Option<usize>>,
}

impl Part {
    pub fn rule(&self, name: RuleId) -> Option<&Rule> {
        self.rule_at.get(name as usize).copied().flatten().map(|place| &self.rules[place])
    }

    fn add(&mut self, rule: Rule) {
        let name = rule.name as usize;
        if self.rule_at.len() <= name {
            self.rule_at.resize(name + 1, None);
        }
        self.rule_at[name] = Some(self.rules.len());
        self.rules.push(rule);
    }

    fn field(&self, name: &[u8]) -> Option<u8> {
        self.fields.iter().position(|(other, _)| other.as_bytes() == name).map(|place| place as u8)
    }
}

pub struct Protocol {
    pub name: String,
    pub statuses: Vec<String>,
    pub messages: Vec<(String, Class)>,
    message_places: HashMap<String, MessageId>,
    pub rule_names: Vec<String>,
    rule_places: HashMap<String, RuleId>,
    parts: Vec<Part>,
}

fn string(name: &[u8]) -> String {
    String::from_utf8_lossy(name).into_owned()
}

impl Protocol {
    pub fn part(&self, kind: Kind) -> &Part {
        &self.parts[kind as usize]
    }

    fn status(&self, name: &[u8]) -> Option<Status> {
        self.statuses.iter().position(|other| other.as_bytes() == name).map(|place| place as Status)
    }

    pub fn message(&self, name: &[u8]) -> Option<MessageId> {
        self.message_places.get(std::str::from_utf8(name).ok()?).copied()
    }

    pub fn class(&self, message: MessageId) -> Class {
        self.messages[message as usize].1
    }

    pub fn rule(&self, name: &[u8]) -> Option<RuleId> {
        self.rule_places.get(std::str::from_utf8(name).ok()?).copied()
    }

    /// The number of a rule's name, which is new or that of a rule of another kind.
    fn rule_id(&mut self, name: &[u8]) -> RuleId {
        if let Some(id) = self.rule(name) {
            return id;
        }
        let id = self.rule_names.len() as RuleId;
        self.rule_names.push(string(name));
        self.rule_places.insert(string(name), id);
        id
    }

    /// Reads the protocol of a document.
    pub fn read(tokens: &mut Tokens) -> Result<Protocol, Fault> {
        if tokens.one_of(&[("protocol", true), ("use", false)])? {
            return Protocol::read_written(tokens);
        }
        let text = tokens.used(|name| SHIPPED.iter().find(|(other, _)| other.as_bytes() == name))?.1;
        let mut tokens = Tokens::new(text.as_bytes());
        tokens.word("protocol")?;
        Protocol::read_written(&mut tokens)
    }

    fn read_written(tokens: &mut Tokens) -> Result<Protocol, Fault> {
        let mut protocol = Protocol {
            name: string(tokens.new_name(|_| false)?),
            statuses: Vec::new(),
            messages: Vec::new(),
            message_places: HashMap::new(),
            rule_names: Vec::new(),
            rule_places: HashMap::new(),
            parts: Vec::new(),
        };
        let after = protocol.read_statuses(tokens)?;
        protocol.read_messages(tokens, after)?;
        for (kind, name) in ["root", "mid", "leaf"].into_iter().enumerate() {
            if kind > 0 {
                tokens.word("kind")?;
            }
            tokens.word(name)?;
            let part = protocol.read_part(tokens, name != "leaf")?;
            protocol.parts.push(part);
        }
        tokens.word("end")?;
        Ok(protocol)
    }

    /// Reads the statuses, and answers the token after them.
    fn read_statuses<'a>(&mut self, tokens: &mut Tokens<'a>) -> Result<Token<'a>, Fault> {
        tokens.word("status")?;
        for _ in 0..2 {
            let name = tokens.new_name(|name| self.status(name).is_some())?;
            self.statuses.push(string(name));
        }
        loop {
            let token = tokens.next();
            if token.is("message") || token.is("kind") {
                return Ok(token);
            }
            let is_past = self.statuses.len() >= MOST_STATUSES;
            let name = new_name(token, is_past, |name| self.status(name).is_some())?;
            self.statuses.push(string(name));
        }
    }

    /// Reads the messages up to the first `kind`.
    fn read_messages(&mut self, tokens: &mut Tokens, first: Token) -> Result<(), Fault> {
        let mut token = first;
        while token.is("message") {
            if self.messages.len() >= MOST_MESSAGES {
                return Err(token.fault("too many"));
            }
            let name = tokens.new_name(|name| self.status(name).is_some() || self.message(name).is_some())?;
            let class = tokens.one_of(&[
                ("ext_req", Class::ExtReq),
                ("ext_rsp", Class::ExtRsp),
                ("up_req", Class::UpReq),
                ("up_rsp", Class::UpRsp),
                ("down_req", Class::DownReq),
                ("down_rsp", Class::DownRsp),
            ])?;
            self.message_places.insert(string(name), self.messages.len() as MessageId);
            self.messages.push((string(name), class));
            token = tokens.next();
        }
        if token.is("kind") { Ok(()) } else { Err(token.expected()) }
    }

    fn read_part(&mut self, tokens: &mut Tokens, has_directory: bool) -> Result<Part, Fault> {
        let mut part = Part { fields: Vec::new(), dir: None, rules: Vec::new(), rule_at: Vec::new() };
        let mut token = tokens.next();
        while token.is("field") {
            if part.fields.len() >= MOST_FIELDS {
                return Err(token.fault("too many"));
            }
            let name = tokens.new_name(|name| part.field(name).is_some())?;
            tokens.word("init")?;
            let status = tokens.used(|name| self.status(name))?;
            part.fields.push((string(name), status));
            token = tokens.next();
        }
        if has_directory {
            if !token.is("dir") {
                return Err(token.expected());
            }
            tokens.word("init")?;
            part.dir = Some(tokens.used(|name| self.status(name))?);
            token = tokens.next();
        }
        while token.is("rule") {
            if part.rules.len() >= MOST_RULES {
                return Err(token.fault("too many"));
            }
            let name = tokens.new_name(|name| self.rule(name).is_some_and(|id| part.rule(id).is_some()))?;
            let mut rule = self.read_rule(tokens, &part)?;
            rule.name = self.rule_id(name);
            part.add(rule);
            token = tokens.next();
        }
        if token.is("end") { Ok(part) } else { Err(token.expected()) }
    }

    fn read_take(&self, tokens: &mut Tokens) -> Result<Take, Fault> {
        tokens.word("take")?;
        let from = tokens.one_of(&[("me", 0), ("parent", 1), ("kids", 2), ("none", 3)])?;
        if from == 3 {
            return Ok(Take::Nothing);
        }
        let message = tokens.used(|name| self.message(name))?;
        Ok(match from {
            0 => Take::Me(message),
            1 => Take::Parent(message),
            _ => Take::Kids(message),
        })
    }

    fn read_rule(&self, tokens: &mut Tokens, part: &Part) -> Result<Rule, Fault> {
        const NEEDS: [(&str, Need); 5] = [
            ("any", Need::Any),
            ("free", Need::Free),
            ("child", Need::Child),
            ("parent", Need::Parent),
            ("self", Need::Own),
        ];
        const SIDES: [(&str, Side); 2] = [("up", Side::Up), ("down", Side::Down)];
        const ORIGINS: [(&str, Origin); 3] =
            [("child", Origin::Child), ("parent", Origin::Parent), ("self", Origin::Own)];
        let take = self.read_take(tokens)?;
        tokens.word("need")?;
        tokens.word("up")?;
        let up = tokens.one_of(&NEEDS)?;
        tokens.word("down")?;
        let down = tokens.one_of(&NEEDS)?;
        let (guard, sets) = (Vec::new(), Vec::new());
        let mut rule = Rule { name: 0, take, up, down, guard, sets, free: None, lock: None, send: None };
        let mut token = tokens.next();
        if token.is("when") {
            token = self.read_guard(tokens, part, &mut rule.guard)?;
        }
        if token.is("set") {
            token = self.read_sets(tokens, part, &mut rule.sets)?;
        }
        if token.is("free") {
            rule.free = Some(tokens.one_of(&SIDES)?);
            token = tokens.next();
        }
        if token.is("lock") {
            rule.lock = Some((tokens.one_of(&SIDES)?, tokens.one_of(&ORIGINS)?));
            token = tokens.next();
        }
        if token.is("send") {
            rule.send = Some(self.read_send(tokens)?);
            token = tokens.next();
        }
        if token.is("end") { Ok(rule) } else { Err(token.expected()) }
    }

    /// Reads a set of statuses, and answers it and the token after it.
    fn read_set<'a>(&self, tokens: &mut Tokens<'a>) -> Result<(StatusSet, Token<'a>), Fault> {
        let mut set = StatusSet(1 << tokens.used(|name| self.status(name))?);
        loop {
            let token = tokens.next();
            match self.status(token.text) {
                Some(status) if set.has(status) => return Err(token.fault("repeated")),
                Some(status) => set.0 |= 1 << status,
                None => return Ok((set, token)),
            }
        }
    }

    fn read_atom<'a>(&self, tokens: &mut Tokens<'a>, part: &Part, is_past: bool) -> Result<(Atom, Token<'a>), Fault> {
        let first = tokens.next();
        let field = part.field(first.text);
        if field.is_none() && !["me", "kids", "others", "asked"].iter().any(|word| first.is(word)) {
            return Err(first.unknown());
        }
        if is_past {
            return Err(first.fault("too many"));
        }
        if first.is("asked") {
            return Ok((Atom::Asked(tokens.used(|name| self.message(name))?), tokens.next()));
        }
        let make: fn(StatusSet) -> Atom = if first.is("kids") {
            tokens.one_of(&[("all", Atom::KidsAll as fn(StatusSet) -> Atom), ("any", Atom::KidsAny)])?
        } else if first.is("others") {
            tokens.one_of(&[("all", Atom::OthersAll as fn(StatusSet) -> Atom), ("any", Atom::OthersAny)])?
        } else {
            tokens.word("in")?;
            Atom::Me
        };
        let (set, token) = self.read_set(tokens)?;
        Ok((field.map_or(make(set), |field| Atom::Field(field, set)), token))
    }

    /// Reads the conditions, and answers the token after them.
    fn read_guard<'a>(&self, tokens: &mut Tokens<'a>, part: &Part, guard: &mut Vec<Atom>) -> Result<Token<'a>, Fault> {
        loop {
            let (atom, token) = self.read_atom(tokens, part, guard.len() >= MOST_ATOMS)?;
            guard.push(atom);
            if !token.is_sign(",") {
                return ended(token, &["set", "free", "lock", "send", "end"]);
            }
        }
    }

    fn read_assign(&self, tokens: &mut Tokens, part: &Part, sets: &[Assign]) -> Result<Assign, Fault> {
        let token = tokens.next();
        let field = part.field(token.text);
        let is_taken = if let Some(field) = field {
            sets.iter().any(|set| matches!(set, Assign::Field(other, _) if *other == field))
        } else if token.is("val") {
            sets.iter().any(|set| matches!(set, Assign::Val(_)))
        } else if token.is("me") {
            sets.iter().any(|set| matches!(set, Assign::Me(_)))
        } else if token.is("targets") {
            sets.iter().any(|set| matches!(set, Assign::Targets(_)))
        } else {
            return Err(token.unknown());
        };
        if is_taken {
            return Err(token.fault("repeated"));
        }
        if sets.len() >= MOST_SETS {
            return Err(token.fault("too many"));
        }
        tokens.sign(":=")?;
        if token.is("val") {
            return Ok(Assign::Val(read_value(tokens)?));
        }
        let status = tokens.used(|name| self.status(name))?;
        Ok(match field {
            Some(field) => Assign::Field(field, status),
            None if token.is("me") => Assign::Me(status),
            None => Assign::Targets(status),
        })
    }

    /// Reads the assignments, and answers the token after them.
    fn read_sets<'a>(&self, tokens: &mut Tokens<'a>, part: &Part, sets: &mut Vec<Assign>) -> Result<Token<'a>, Fault> {
        loop {
            let assign = self.read_assign(tokens, part, sets)?;
            sets.push(assign);
            let token = tokens.next();
            if !token.is_sign(",") {
                return ended(token, &["free", "lock", "send", "end"]);
            }
        }
    }

    fn read_send(&self, tokens: &mut Tokens) -> Result<Send, Fault> {
        let to = tokens.one_of(&[("me", 0), ("parent", 1), ("kids", 2), ("others", 3)])?;
        let (goal, message) = if to < 2 {
            (if to == 0 { Goal::Me } else { Goal::Parent }, tokens.used(|name| self.message(name))?)
        } else {
            tokens.word("in")?;
            let (set, token) = self.read_set(tokens)?;
            let message = self.message(token.text).ok_or_else(|| token.unknown())?;
            (if to == 2 { Goal::Kids(set) } else { Goal::Others(set) }, message)
        };
        Ok(Send { goal, message, value: read_value(tokens)? })
    }
}

/// The token after a list, which is one of these words.
fn ended<'a>(token: Token<'a>, words: &[&str]) -> Result<Token<'a>, Fault> {
    if words.iter().any(|word| token.is(word)) { Ok(token) } else { Err(token.expected()) }
}

fn read_value(tokens: &mut Tokens) -> Result<Value, Fault> {
    const WORDS: [(&str, Value); 4] =
        [("val", Value::Val), ("msg", Value::Msg), ("kept", Value::Kept), ("rs", Value::Rs)];
    let token = tokens.next();
    if token.value() == Some(0) {
        return Ok(Value::Zero);
    }
    match WORDS.iter().find(|(word, _)| token.is(word)) {
        Some((_, value)) => Ok(*value),
        None => Err(token.expected()),
    }
}
