//! Transactions, and the order in which they are printed.
//!
//! Transactions are named by their numbers, and firings by their places in the history. It is meant for accepted
//! protocols: there no transactions precede one another in a circle, so that all are printed.

use crate::document::Document;
use crate::system::Fired;
use std::cmp::Reverse;
use std::collections::BinaryHeap;

/// The transactions of a history.
pub struct Transactions {
    fired: Vec<Fired>,
    /// The places of transaction `number`, in order: those from `starts[number]` to `starts[number + 1]` of `places`.
    starts: Vec<u32>,
    places: Vec<u32>,
    /// For each number of a transaction its first firing at its top object.
    anchors: Vec<u32>,
}

impl Transactions {
    pub fn new(document: &Document, fired: Vec<Fired>) -> Transactions {
        let (starts, places) = members(&fired);
        let anchors = anchors(document, &fired);
        Transactions { fired, starts, places, anchors }
    }

    fn number_of(&self, place: u32) -> u32 {
        self.fired[place as usize].number
    }

    /// The places of a transaction in the order of the history.
    fn places(&self, number: u32) -> &[u32] {
        let number = number as usize;
        &self.places[self.starts[number] as usize..self.starts[number + 1] as usize]
    }

    /// The numbers of the transactions, from the least.
    fn numbers(&self) -> impl Iterator<Item = u32> {
        (0..self.fired.len() as u32).filter(|&place| self.number_of(place) == place)
    }

    /// Whether a firing is moved to just before the anchor of its transaction.
    fn is_moved(&self, place: u32) -> bool {
        self.fired[place as usize].is_upward && place < self.anchors[self.number_of(place) as usize]
    }

    fn moved(&self, number: u32) -> impl Iterator<Item = u32> {
        self.places(number).iter().copied().filter(|&place| self.is_moved(place))
    }

    /// The places of all firings in normal order.
    pub fn normal_order(&self) -> Vec<u32> {
        let mut order = Vec::with_capacity(self.fired.len());
        for (place, &Fired { number, .. }) in (0..).zip(&self.fired) {
            if self.anchors[number as usize] == place {
                order.extend(self.moved(number));
            }
            if !self.is_moved(place) {
                order.push(place);
            }
        }
        order
    }

    /// The places of a transaction in normal order.
    pub fn in_normal_order(&self, number: u32) -> impl Iterator<Item = u32> {
        let anchor = self.anchors[number as usize];
        let (before, after) =
            self.places(number).split_at(self.places(number).partition_point(|&place| place < anchor));
        let stay = before.iter().copied().filter(|&place| !self.is_moved(place));
        stay.chain(self.moved(number)).chain(after.iter().copied())
    }

    /// The numbers of the transactions in the printed order.
    ///
    /// A transaction comes when those just before it at each of its objects have come, and of several the least. So it
    /// is enough to count, for each transaction, its links from neighbours at an object that are still to come.
    pub fn printed_order(&self, document: &Document, order: &[u32]) -> Vec<u32> {
        let next = self.neighbours(document, order);
        let mut open_links = vec![0_u32; self.fired.len()];
        for &number in next.iter().flatten() {
            open_links[number as usize] += 1;
        }
        let ready = self.numbers().filter(|&number| open_links[number as usize] == 0).map(Reverse);
        let mut ready: BinaryHeap<Reverse<u32>> = ready.collect();
        let mut printed = Vec::new();
        while let Some(Reverse(number)) = ready.pop() {
            printed.push(number);
            for follower in self.places(number).iter().filter_map(|&place| next[place as usize]) {
                let open = &mut open_links[follower as usize];
                *open -= 1;
                if *open == 0 {
                    ready.push(Reverse(follower));
                }
            }
        }
        printed
    }

    /// For each place the transaction of the next firing at its line and object in normal order, where that is another.
    fn neighbours(&self, document: &Document, order: &[u32]) -> Vec<Option<u32>> {
        let mut last = vec![None; document.work.lines as usize * document.nodes.len()];
        let mut next = vec![None; order.len()];
        for &place in order {
            let firing = &document.history[place as usize];
            let number = self.number_of(place);
            let here = &mut last[firing.line as usize * document.nodes.len() + firing.object as usize];
            if let Some(earlier) = here.replace(place)
                && self.number_of(earlier) != number
            {
                next[earlier as usize] = Some(number);
            }
        }
        next
    }
}

/// The places of each transaction, one transaction after another, and where each begins.
fn members(fired: &[Fired]) -> (Vec<u32>, Vec<u32>) {
    let mut starts = vec![0; fired.len() + 1];
    for &Fired { number, .. } in fired {
        starts[number as usize + 1] += 1;
    }
    for number in 0..fired.len() {
        starts[number + 1] += starts[number];
    }
    let mut ends = starts.clone();
    let mut places = vec![0; fired.len()];
    for (place, &Fired { number, .. }) in (0..).zip(fired) {
        let end = &mut ends[number as usize];
        places[*end as usize] = place;
        *end += 1;
    }
    (starts, places)
}

/// For each number of a transaction its first firing at its top object, the least one of those of the least level.
fn anchors(document: &Document, fired: &[Fired]) -> Vec<u32> {
    let height = |place: u32| {
        let object = document.history[place as usize].object;
        (document.nodes[object as usize].level, object)
    };
    let mut anchors: Vec<u32> = (0..fired.len() as u32).collect();
    for (place, &Fired { number, .. }) in (0..).zip(fired) {
        let anchor = &mut anchors[number as usize];
        if height(place) < height(*anchor) {
            *anchor = place;
        }
    }
    anchors
}
