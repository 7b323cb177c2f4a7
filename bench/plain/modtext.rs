//! Modules: their reader, and their text.

use crate::text::{Fault, Token, TokenKind, Tokens, number};
use std::collections::{HashMap, HashSet};
use std::fmt::Write;

/// Registers and queues are named by their places.
#[derive(Clone, Copy)]
pub enum Atom {
    Is(u32, u64),
    Not(u32, u64),
    Head(u32, u32),
}

#[derive(Clone, Copy)]
pub enum ModValue {
    Number(u64),
    Register(u32),
    Front(u32),
}

#[derive(Clone, Copy)]
pub enum Act {
    Deq(u32),
    Set(u32, ModValue),
    Enq(u32, u32, ModValue),
}

pub struct Action {
    pub condition: Vec<Atom>,
    pub act: Act,
}

pub struct ModRule<'a> {
    pub object: u32,
    pub name: &'a str,
    pub child: Option<u32>,
    pub is_spontaneous: bool,
    /// Each holds where one of its atoms does.
    pub clauses: Vec<Vec<Atom>>,
    pub actions: Vec<Action>,
}

pub struct Modules<'a> {
    pub name: &'a str,
    pub registers: Vec<(String, u64)>,
    pub queues: Vec<String>,
    pub rules: Vec<ModRule<'a>>,
}

/// An item of a feed: its queue, its id and its value.
pub type Item = (u32, u32, u64);

// Reading

#[derive(Clone, Copy)]
enum Named {
    Register(u32),
    Queue(u32),
}

/// What is declared so far.
#[derive(Default)]
pub struct Names<'a> {
    named: HashMap<&'a [u8], Named>,
    /// The numbers, names and children of the rules.
    rules: HashSet<(u32, &'a [u8], Option<u32>)>,
}

fn text(name: &[u8]) -> &str {
    std::str::from_utf8(name).unwrap_or_default()
}

impl<'a> Names<'a> {
    fn register(&self, name: &[u8]) -> Option<u32> {
        match self.named.get(name) {
            Some(Named::Register(place)) => Some(*place),
            _ => None,
        }
    }

    fn queue(&self, name: &[u8]) -> Option<u32> {
        match self.named.get(name) {
            Some(Named::Queue(place)) => Some(*place),
            _ => None,
        }
    }

    fn read_queue(&self, tokens: &mut Tokens) -> Result<u32, Fault> {
        tokens.used(|name| self.queue(name))
    }

    /// Reads an atom, the first token of which was taken.
    fn read_atom(&self, tokens: &mut Tokens, first: Token) -> Result<Atom, Fault> {
        if first.is("head") {
            let queue = self.read_queue(tokens)?;
            tokens.sign("=")?;
            return Ok(Atom::Head(queue, tokens.number()?.0));
        }
        let register = self.register(first.text).ok_or_else(|| first.unknown())?;
        let sign = tokens.next();
        if sign.is_sign("=") {
            Ok(Atom::Is(register, tokens.value()?))
        } else if sign.is_sign("!=") {
            Ok(Atom::Not(register, tokens.value()?))
        } else {
            Err(sign.expected())
        }
    }

    /// Reads a clause, and answers it and the token after it.
    fn read_clause<'t>(&self, tokens: &mut Tokens<'t>) -> Result<(Vec<Atom>, Token<'t>), Fault> {
        let first = tokens.next();
        if first.is("never") {
            return Ok((Vec::new(), tokens.next()));
        }
        let mut atoms = vec![self.read_atom(tokens, first)?];
        loop {
            let token = tokens.next();
            if !token.is_sign("|") {
                return Ok((atoms, token));
            }
            let first = tokens.next();
            atoms.push(self.read_atom(tokens, first)?);
        }
    }

    fn read_value(&self, tokens: &mut Tokens) -> Result<ModValue, Fault> {
        let token = tokens.next();
        if token.kind == TokenKind::Number {
            return token.value().map(ModValue::Number).ok_or_else(|| token.fault("too many"));
        }
        if token.is("value") {
            return self.read_queue(tokens).map(ModValue::Front);
        }
        self.register(token.text).map(ModValue::Register).ok_or_else(|| token.expected())
    }

    fn read_action(&self, tokens: &mut Tokens) -> Result<Action, Fault> {
        let mut condition = Vec::new();
        let mut token = tokens.next();
        if token.is("if") {
            loop {
                let first = tokens.next();
                condition.push(self.read_atom(tokens, first)?);
                token = tokens.next();
                if !token.is("and") {
                    break;
                }
            }
        }
        let act = if token.is("deq") {
            Act::Deq(self.read_queue(tokens)?)
        } else if token.is("enq") {
            Act::Enq(self.read_queue(tokens)?, tokens.number()?.0, self.read_value(tokens)?)
        } else {
            let register = self.register(token.text).ok_or_else(|| token.unknown())?;
            tokens.sign(":=")?;
            Act::Set(register, self.read_value(tokens)?)
        };
        Ok(Action { condition, act })
    }

    /// Reads the child of a rule, if it has one, and answers it and the token after it.
    fn read_child<'t>(
        &mut self,
        tokens: &mut Tokens<'t>,
        object: u32,
        name: &'a [u8],
    ) -> Result<(Option<u32>, Token<'t>), Fault> {
        let token = tokens.next();
        if !token.is("from") {
            return match self.rules.insert((object, name, None)) || token.kind == TokenKind::End {
                true => Ok((None, token)),
                false => Err(token.fault("repeated")),
            };
        }
        let child = tokens.next();
        let value = number(child)?;
        match self.rules.insert((object, name, Some(value))) {
            true => Ok((Some(value), tokens.next())),
            false => Err(child.fault("repeated")),
        }
    }

    fn read_rule(&mut self, tokens: &mut Tokens<'a>) -> Result<ModRule<'a>, Fault> {
        let (object, _) = tokens.number()?;
        let name = tokens.new_name(|_| false)?;
        let (child, mut token) = self.read_child(tokens, object, name)?;
        let is_spontaneous = token.is("spontaneous");
        if is_spontaneous {
            token = tokens.next();
        }
        let (mut clauses, mut actions) = (Vec::new(), Vec::new());
        if token.is("when") {
            loop {
                let (clause, after) = self.read_clause(tokens)?;
                clauses.push(clause);
                token = after;
                if !token.is_sign(",") {
                    break;
                }
            }
        }
        if token.is("do") {
            loop {
                actions.push(self.read_action(tokens)?);
                token = tokens.next();
                if !token.is_sign(",") {
                    break;
                }
            }
        }
        if !token.is("end") {
            return Err(token.expected());
        }
        Ok(ModRule { object, name: text(name), child, is_spontaneous, clauses, actions })
    }
}

/// Reads modules.
pub fn read_modules<'a>(tokens: &mut Tokens<'a>) -> Result<(Modules<'a>, Names<'a>), Fault> {
    tokens.word("modules")?;
    let name = text(tokens.new_name(|_| false)?);
    let mut modules = Modules { name, registers: Vec::new(), queues: Vec::new(), rules: Vec::new() };
    let mut names = Names::default();
    let mut token = tokens.next();
    while token.is("reg") {
        let name = tokens.new_name(|name| names.named.contains_key(name))?;
        names.named.insert(name, Named::Register(modules.registers.len() as u32));
        modules.registers.push((text(name).to_string(), tokens.value()?));
        token = tokens.next();
    }
    while token.is("queue") {
        let name = tokens.new_name(|name| names.named.contains_key(name))?;
        names.named.insert(name, Named::Queue(modules.queues.len() as u32));
        modules.queues.push(text(name).to_string());
        token = tokens.next();
    }
    while token.is("rule") {
        modules.rules.push(names.read_rule(tokens)?);
        token = tokens.next();
    }
    if token.is("end") { Ok((modules, names)) } else { Err(token.expected()) }
}

/// Reads a feed.
pub fn read_feed(tokens: &mut Tokens, names: &Names) -> Result<Vec<Item>, Fault> {
    tokens.word("feed")?;
    let mut items = Vec::new();
    let mut token = tokens.next();
    while !token.is("end") {
        let queue = names.queue(token.text).ok_or_else(|| token.unknown())?;
        items.push((queue, tokens.number()?.0, tokens.value()?));
        token = tokens.next();
    }
    Ok(items)
}

// Writing

/// Writes to a string, which never fails.
macro_rules! put {
    ($text:expr, $($arguments:tt)*) => {{ let _ = write!($text, $($arguments)*); }};
}

impl Modules<'_> {
    fn put_atom(&self, text: &mut String, atom: Atom) {
        match atom {
            Atom::Is(register, number) => put!(text, "{} = {number}", self.registers[register as usize].0),
            Atom::Not(register, number) => put!(text, "{} != {number}", self.registers[register as usize].0),
            Atom::Head(queue, id) => put!(text, "head {} = {id}", self.queues[queue as usize]),
        };
    }

    fn put_value(&self, text: &mut String, value: ModValue) {
        match value {
            ModValue::Number(number) => put!(text, "{number}"),
            ModValue::Register(register) => text.push_str(&self.registers[register as usize].0),
            ModValue::Front(queue) => put!(text, "value {}", self.queues[queue as usize]),
        };
    }

    fn put_atoms(&self, text: &mut String, atoms: &[Atom], between: &str) {
        for (place, atom) in atoms.iter().enumerate() {
            if place > 0 {
                text.push_str(between);
            }
            self.put_atom(text, *atom);
        }
    }

    fn put_action(&self, text: &mut String, action: &Action) {
        if !action.condition.is_empty() {
            text.push_str("if ");
            self.put_atoms(text, &action.condition, " and ");
            text.push(' ');
        }
        match action.act {
            Act::Deq(queue) => put!(text, "deq {}", self.queues[queue as usize]),
            Act::Set(register, value) => {
                put!(text, "{} := ", self.registers[register as usize].0);
                self.put_value(text, value);
            }
            Act::Enq(queue, id, value) => {
                put!(text, "enq {} {id} ", self.queues[queue as usize]);
                self.put_value(text, value);
            }
        };
    }

    fn put_rule(&self, text: &mut String, rule: &ModRule) {
        put!(text, "rule {} {}", rule.object, rule.name);
        if let Some(child) = rule.child {
            put!(text, " from {child}");
        }
        if rule.is_spontaneous {
            text.push_str(" spontaneous");
        }
        for (place, clause) in rule.clauses.iter().enumerate() {
            text.push_str(if place == 0 { " when " } else { ", " });
            if clause.is_empty() {
                text.push_str("never");
            }
            self.put_atoms(text, clause, " | ");
        }
        for (place, action) in rule.actions.iter().enumerate() {
            text.push_str(if place == 0 { " do " } else { ", " });
            self.put_action(text, action);
        }
        text.push_str(" end\n");
    }

    /// The text of the modules.
    pub fn text(&self) -> String {
        let mut text = format!("modules {}\n", self.name);
        for (name, value) in &self.registers {
            put!(text, "reg {name} {value}\n");
        }
        for name in &self.queues {
            put!(text, "queue {name}\n");
        }
        for rule in &self.rules {
            self.put_rule(&mut text, rule);
        }
        text.push_str("end\n");
        text
    }
}
