//! The walk of a single thread: at each turn the first ready firing from a drawn position on.

use crate::bits::Bits;
use crate::document::{Document, Firing};
use crate::draws::Draws;
use crate::protocol::{Kind, Rule, Take};
use crate::system::{Fired, Reached, System};

/// The rule, by its place, and the child's place of a firing that is ready.
#[derive(Clone, Copy, Default)]
struct Ready {
    rule: usize,
    child: Option<usize>,
}

/// A walk on its way.
pub struct Walk<'a> {
    document: &'a Document,
    pub system: System,
    pub journal: Vec<Firing>,
    pub fired: Vec<Fired>,
    /// How many firings of rules that take nothing were made at each position.
    self_firings: Vec<u32>,
    ready: Vec<Ready>,
    positions: Bits,
}

impl<'a> Walk<'a> {
    fn new(document: &'a Document) -> Walk<'a> {
        let objects = document.nodes.len();
        let count = objects * document.work.lines as usize;
        let mut walk = Walk {
            document,
            system: System::new(document),
            journal: Vec::new(),
            fired: Vec::new(),
            self_firings: vec![0; count],
            ready: vec![Ready::default(); count],
            positions: Bits::new(count),
        };
        for position in 0..count {
            walk.look(position / objects, position % objects);
        }
        walk
    }

    /// Finds the first ready firing of an object anew.
    fn look(&mut self, line: usize, object: usize) {
        let position = line * self.document.nodes.len() + object;
        let found = self.first_ready(line, object, self.self_firings[position] >= self.document.work.self_count);
        self.ready[position] = found.unwrap_or_default();
        self.positions.set(position, found.is_some());
    }

    fn first_ready(&self, line: usize, object: usize, is_spent: bool) -> Option<Ready> {
        let node = &self.document.nodes[object];
        let can = |rule: &Rule, child| self.system.can(self.document, line, object, rule, child);
        for (place, rule) in self.document.protocol.part(node.kind).rules.iter().enumerate() {
            let child = match rule.take {
                Take::Nothing if is_spent => continue,
                Take::Me(_) if node.kind != Kind::Leaf => {
                    let Some(child) = (0..node.children.len()).find(|&child| can(rule, Some(child))) else { continue };
                    Some(child)
                }
                _ if can(rule, None) => None,
                _ => continue,
            };
            return Some(Ready { rule: place, child });
        }
        None
    }

    /// Makes the firing at a position where one is ready.
    fn fire(&mut self, position: usize) {
        let objects = self.document.nodes.len();
        let (line, object) = (position / objects, position % objects);
        let node = &self.document.nodes[object];
        let Ready { rule, child } = self.ready[position];
        let rule = &self.document.protocol.part(node.kind).rules[rule];
        let place = self.journal.len() as u32;
        let Some((fired, reached)) = self.system.fire(self.document, line, object, rule, child, place) else { return };
        self.fired.push(fired);
        let from = child.map(|child| node.children[child] as u32);
        self.journal.push(Firing { line: line as u32, object: object as u32, rule: rule.name, from });
        self.self_firings[position] += u32::from(matches!(rule.take, Take::Nothing));
        self.look(line, object);
        match reached {
            Reached::Nobody => {}
            Reached::Parent => {
                if let Some(parent) = node.parent {
                    self.look(line, parent);
                }
            }
            Reached::Children(places) => {
                for place in places.iter() {
                    self.look(line, node.children[place]);
                }
            }
        }
    }
}

/// The walk that a seed gives, to its end.
pub fn walk(document: &Document, seed: u64) -> Walk<'_> {
    let mut walk = Walk::new(document);
    let mut draws = Draws::new(seed);
    let count = walk.ready.len();
    while let Some(position) = walk.positions.next_from(draws.next() % count) {
        walk.fire(position);
    }
    walk
}
