//! Numbers drawn from a seed, and the requests that they generate.

use crate::document::{Document, Entry, Request, SetupFault};
use crate::protocol::{Class, Kind, MessageId};

/// The generator of draws.
pub struct Draws {
    number: u32,
}

impl Draws {
    pub fn new(seed: u64) -> Draws {
        Draws { number: (seed % 65536) as u32 }
    }

    pub fn next(&mut self) -> usize {
        self.number = (self.number * 25173 + 13849) % 65536;
        self.number as usize / 16
    }
}

/// Appends generated requests to a lawful work; three draws choose the leaf, the line and the message of each.
pub fn generate(document: &mut Document, count: u32, seed: u64) -> Result<(), SetupFault> {
    let protocol = &document.protocol;
    let ids = (0..protocol.messages.len() as MessageId).filter(|&id| protocol.class(id) == Class::ExtReq);
    let ids: Vec<MessageId> = ids.collect();
    if ids.is_empty() {
        return Ok(());
    }
    document.check_count(count)?;
    let leaves = (0..document.nodes.len()).filter(|&object| document.nodes[object].kind == Kind::Leaf);
    let leaves: Vec<usize> = leaves.collect();
    let lines = document.work.lines as usize;
    let mut requests = vec![Vec::new(); leaves.len() * lines];
    let mut draws = Draws::new(seed);
    for value in 1..=u64::from(count) {
        let leaf = draws.next() % leaves.len();
        let line = draws.next() % lines;
        let message = ids[draws.next() % ids.len()];
        requests[leaf * lines + line].push(Request::generated(message, value));
    }
    for (place, its) in requests.into_iter().enumerate() {
        if !its.is_empty() {
            document.work.entries.push(Entry::generated(leaves[place / lines] as u32, (place % lines) as u32, its));
        }
    }
    Ok(())
}
