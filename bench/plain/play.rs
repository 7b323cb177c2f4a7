//! What modules do, and what a play prints.

use crate::bits::Bits;
use crate::modtext::{Act, Action, Atom, Item, ModRule, ModValue, Modules};
use std::collections::VecDeque;
use std::fmt::Write;

struct State {
    registers: Vec<u64>,
    /// Each item has an id and a value.
    queues: Vec<VecDeque<(u32, u64)>>,
}

impl State {
    fn holds(&self, atom: Atom) -> bool {
        match atom {
            Atom::Is(register, number) => self.registers[register as usize] == number,
            Atom::Not(register, number) => self.registers[register as usize] != number,
            Atom::Head(queue, id) => self.queues[queue as usize].front().is_some_and(|item| item.0 == id),
        }
    }

    fn can(&self, rule: &ModRule) -> bool {
        rule.clauses.iter().all(|clause| clause.iter().any(|atom| self.holds(*atom)))
    }

    fn value(&self, value: ModValue) -> u64 {
        match value {
            ModValue::Number(number) => number,
            ModValue::Register(register) => self.registers[register as usize],
            ModValue::Front(queue) => self.queues[queue as usize].front().map_or(0, |item| item.1),
        }
    }
}

/// For registers and queues the rules whose clauses read them.
struct Readers {
    registers: Vec<Vec<u32>>,
    queues: Vec<Vec<u32>>,
}

impl Readers {
    fn new(modules: &Modules) -> Readers {
        let mut readers = Readers {
            registers: vec![Vec::new(); modules.registers.len()],
            queues: vec![Vec::new(); modules.queues.len()],
        };
        let rules = (0..).zip(&modules.rules).filter(|(_, rule)| !rule.is_spontaneous);
        for (place, rule) in rules {
            for atom in rule.clauses.iter().flatten() {
                let list = match *atom {
                    Atom::Is(register, _) | Atom::Not(register, _) => &mut readers.registers[register as usize],
                    Atom::Head(queue, _) => &mut readers.queues[queue as usize],
                };
                if list.last() != Some(&place) {
                    list.push(place);
                }
            }
        }
        readers
    }
}

/// What a firing changes, read before anything is changed.
#[derive(Default)]
struct Changes {
    registers: Vec<(u32, u64)>,
    taken: Vec<u32>,
    sent: Vec<Item>,
}

struct Play<'a> {
    modules: &'a Modules<'a>,
    readers: Readers,
    state: State,
    /// The rules that can fire.
    ready: Bits,
}

impl<'a> Play<'a> {
    fn new(modules: &'a Modules, feed: &[Item]) -> Play<'a> {
        let mut state = State {
            registers: modules.registers.iter().map(|(_, value)| *value).collect(),
            queues: vec![VecDeque::new(); modules.queues.len()],
        };
        for &(queue, id, value) in feed {
            state.queues[queue as usize].push_back((id, value));
        }
        let mut ready = Bits::new(modules.rules.len());
        for (place, rule) in modules.rules.iter().enumerate() {
            ready.set(place, !rule.is_spontaneous && state.can(rule));
        }
        Play { modules, readers: Readers::new(modules), state, ready }
    }

    fn plan(&self, actions: &[Action], changes: &mut Changes) {
        changes.registers.clear();
        changes.taken.clear();
        changes.sent.clear();
        for action in actions.iter().filter(|action| action.condition.iter().all(|atom| self.state.holds(*atom))) {
            match action.act {
                Act::Deq(queue) if changes.taken.contains(&queue) => {}
                Act::Deq(queue) => changes.taken.push(queue),
                Act::Set(register, value) => changes.registers.push((register, self.state.value(value))),
                Act::Enq(queue, id, value) => changes.sent.push((queue, id, self.state.value(value))),
            }
        }
    }

    /// Tries the readers of a register or a queue anew.
    fn look(&mut self, of_register: bool, place: u32) {
        let lists = if of_register { &self.readers.registers } else { &self.readers.queues };
        for &rule in &lists[place as usize] {
            self.ready.set(rule as usize, self.state.can(&self.modules.rules[rule as usize]));
        }
    }

    fn fire(&mut self, rule: usize, changes: &mut Changes) {
        let modules = self.modules;
        self.plan(&modules.rules[rule].actions, changes);
        for &(register, value) in &changes.registers {
            self.state.registers[register as usize] = value;
        }
        for &queue in &changes.taken {
            self.state.queues[queue as usize].pop_front();
        }
        for &(queue, id, value) in &changes.sent {
            self.state.queues[queue as usize].push_back((id, value));
        }
        for &(register, _) in &changes.registers {
            self.look(true, register);
        }
        for &queue in &changes.taken {
            self.look(false, queue);
        }
        for &(queue, _, _) in &changes.sent {
            self.look(false, queue);
        }
    }

    fn text(&self, fired: u32, is_stuck: bool) -> String {
        let mut text = format!("{}\nfired {fired}\n", if is_stuck { "stuck" } else { "more" });
        for ((name, _), value) in self.modules.registers.iter().zip(&self.state.registers) {
            if *value != 0 {
                let _ = writeln!(text, "reg {name} {value}");
            }
        }
        for (name, items) in self.modules.queues.iter().zip(&self.state.queues).filter(|(_, items)| !items.is_empty()) {
            let _ = write!(text, "queue {name}");
            for (id, value) in items {
                let _ = write!(text, " {id}:{value}");
            }
            text.push('\n');
        }
        text.push_str("end\n");
        text
    }
}

/// Fires at each turn the first rule that isn't spontaneous and can, at most so many times, and answers the text of it.
pub fn play(modules: &Modules, feed: &[Item], most: u32) -> String {
    let mut play = Play::new(modules, feed);
    let (mut fired, mut changes) = (0, Changes::default());
    loop {
        match play.ready.first() {
            Some(rule) if fired < most => play.fire(rule, &mut changes),
            first => return play.text(fired, first.is_none()),
        }
        fired += 1;
    }
}
