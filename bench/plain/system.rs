//! States and firings.

use crate::document::{Document, Firing, Request};
use crate::protocol::{
    Assign, Atom, Class, Goal, Kind, MessageId, Need, Origin, Protocol, Rule, Side, Status, StatusSet, Take, Value,
};
use std::collections::VecDeque;

#[derive(Clone, Copy)]
pub struct Message {
    pub id: MessageId,
    pub value: u64,
    /// The number of the transaction that sent it; of no account where a processor did.
    number: u32,
}

/// For whom a lock is held, and for whom a rule works. A child is named by its place among the children.
#[derive(Clone, Copy, PartialEq, Eq)]
pub enum By {
    Processor,
    Child(usize),
    Parent,
    Own,
}

#[derive(Clone, Copy)]
pub struct ChildSet(pub u8);

impl ChildSet {
    pub fn iter(self) -> impl Iterator<Item = usize> {
        (0..8).filter(move |place| self.0 >> place & 1 == 1)
    }
}

#[derive(Clone, Copy)]
pub struct Lock {
    pub by: By,
    pub request: Message,
    pub awaited: ChildSet,
}

/// An object on a line, with the lists to and from its parent and a leaf's requests and answers.
pub struct Object {
    pub fields: Vec<Status>,
    pub dir: Vec<Status>,
    pub val: u64,
    pub up: Option<Lock>,
    pub down: Option<Lock>,
    pub up_requests: VecDeque<Message>,
    pub up_responses: VecDeque<Message>,
    pub from_parent: VecDeque<Message>,
    pub requests: VecDeque<Message>,
    pub answers: VecDeque<Message>,
}

/// What is told of a firing that was made.
#[derive(Clone, Copy)]
pub struct Fired {
    /// The number of its transaction, which is the place of that one's first firing.
    pub number: u32,
    /// Whether it sends a request up; in an accepted protocol just the rules that do so take the uplock.
    pub is_upward: bool,
}

/// The objects to which a firing has sent a message.
#[derive(Clone, Copy)]
pub enum Reached {
    Nobody,
    Parent,
    Children(ChildSet),
}

pub struct System {
    pub lines: Vec<Vec<Object>>,
}

/// What a rule can name at an object; what doesn't exist is `None`.
#[derive(Default)]
struct View {
    /// The number of the transaction to which the firing belongs.
    number: u32,
    requester: Option<By>,
    msg: Option<Message>,
    kept: Option<Message>,
    rs: Option<u64>,
    awaited: Option<ChildSet>,
}

/// The lists to which a firing sends.
enum Sends {
    Nothing,
    Answer(Message),
    Child(usize, Message),
    UpRequest(Message),
    UpResponse(Message),
    Children(ChildSet, Message),
}

/// All that a possible firing does.
struct Plan {
    view: View,
    val: Option<u64>,
    lock: Option<(Side, Lock)>,
    sends: Sends,
}

fn head(list: &VecDeque<Message>, id: MessageId) -> Option<Message> {
    list.front().copied().filter(|message| message.id == id)
}

fn need_holds(need: Need, lock: &Option<Lock>) -> bool {
    match (need, lock) {
        (Need::Any, _) | (Need::Free, None) => true,
        (Need::Child, Some(lock)) => matches!(lock.by, By::Processor | By::Child(_)),
        (Need::Parent, Some(lock)) => lock.by == By::Parent,
        (Need::Own, Some(lock)) => lock.by == By::Own,
        _ => false,
    }
}

impl View {
    /// The view where the rule can take what it takes, for a firing at this place of the history.
    fn new(
        line: &[Object],
        children: &[usize],
        here: &Object,
        rule: &Rule,
        from: Option<usize>,
        place: u32,
    ) -> Option<View> {
        match rule.take {
            Take::Me(id) => {
                let list = from.map_or(&here.requests, |place| &line[children[place]].up_requests);
                let message = head(list, id)?;
                let number = from.map_or(place, |_| message.number);
                let requester = Some(from.map_or(By::Processor, By::Child));
                Some(View { number, requester, msg: Some(message), ..View::default() })
            }
            Take::Parent(id) => {
                let message = head(&here.from_parent, id)?;
                let requester = here.up.map(|lock| lock.by).filter(|by| matches!(by, By::Processor | By::Child(_)));
                let kept = here.up.map(|lock| lock.request);
                Some(View { number: message.number, requester, msg: Some(message), kept, ..View::default() })
            }
            Take::Kids(id) => {
                let lock = here.down?;
                let mut first = None;
                for place in lock.awaited.iter() {
                    let message = head(&line[children[place]].up_responses, id)?;
                    first = first.or(Some(message));
                }
                let Message { value, number, .. } = first?;
                let requester = Some(lock.by).filter(|by| matches!(by, By::Child(_)));
                let (kept, awaited) = (Some(lock.request), Some(lock.awaited));
                Some(View { number, requester, kept, rs: Some(value), awaited, msg: None })
            }
            Take::Nothing => Some(View { number: place, ..View::default() }),
        }
    }

    fn value(&self, here: &Object, value: Value) -> Option<u64> {
        match value {
            Value::Val => Some(here.val),
            Value::Msg => self.msg.map(|message| message.value),
            Value::Kept => self.kept.map(|message| message.value),
            Value::Rs => self.rs,
            Value::Zero => Some(0),
        }
    }

    /// The entry of the requester, where that is a child.
    fn entry(&self, here: &Object) -> Option<Status> {
        match self.requester {
            Some(By::Child(place)) => here.dir.get(place).copied(),
            _ => None,
        }
    }

    /// The entries of all children but the requester, each with its place.
    fn others<'a>(&self, here: &'a Object) -> impl Iterator<Item = (usize, Status)> + 'a {
        let requester = self.requester;
        here.dir.iter().copied().enumerate().filter(move |(place, _)| requester != Some(By::Child(*place)))
    }

    fn holds(&self, here: &Object, atom: Atom) -> bool {
        match atom {
            Atom::Field(field, set) => set.has(here.fields[field as usize]),
            Atom::Me(set) => self.entry(here).is_some_and(|status| set.has(status)),
            Atom::KidsAll(set) => here.dir.iter().all(|status| set.has(*status)),
            Atom::KidsAny(set) => here.dir.iter().any(|status| set.has(*status)),
            Atom::OthersAll(set) => {
                self.requester.is_some() && self.others(here).all(|(_, status)| set.has(status))
            }
            Atom::OthersAny(set) => {
                self.requester.is_some() && self.others(here).any(|(_, status)| set.has(status))
            }
            Atom::Asked(id) => self.kept.is_some_and(|message| message.id == id),
        }
    }

    /// The new value of the object, where the sets change it; no answer where they name what isn't there.
    fn new_value(&self, here: &Object, sets: &[Assign]) -> Option<Option<u64>> {
        let mut val = None;
        for set in sets {
            match set {
                Assign::Field(_, _) => {}
                Assign::Val(value) => val = Some(self.value(here, *value)?),
                Assign::Me(_) => {
                    self.entry(here)?;
                }
                Assign::Targets(_) => {
                    self.awaited?;
                }
            }
        }
        Some(val)
    }

    fn targets(&self, here: &Object, goal: Goal) -> ChildSet {
        let chosen = |set: StatusSet, entries: &mut dyn Iterator<Item = (usize, Status)>| {
            ChildSet(entries.filter(|(_, status)| set.has(*status)).fold(0, |kids, (place, _)| kids | 1 << place))
        };
        match goal {
            Goal::Me | Goal::Parent => ChildSet(0),
            Goal::Kids(set) => chosen(set, &mut here.dir.iter().copied().enumerate()),
            Goal::Others(set) => chosen(set, &mut self.others(here)),
        }
    }

    /// Where the rule sends what; no answer where that isn't there.
    fn sends(&self, protocol: &Protocol, kind: Kind, here: &Object, rule: &Rule) -> Option<Sends> {
        let Some(send) = rule.send else {
            return Some(Sends::Nothing);
        };
        let message = Message { id: send.message, value: self.value(here, send.value)?, number: self.number };
        match send.goal {
            Goal::Me => match self.requester? {
                By::Child(place) => Some(Sends::Child(place, message)),
                _ => Some(Sends::Answer(message)),
            },
            Goal::Parent if kind == Kind::Root => None,
            Goal::Parent if protocol.class(send.message) == Class::UpRsp => Some(Sends::UpResponse(message)),
            Goal::Parent => Some(Sends::UpRequest(message)),
            Goal::Others(_) if self.requester.is_none() => None,
            Goal::Kids(_) | Goal::Others(_) => {
                let targets = self.targets(here, send.goal);
                if targets.0 == 0 { None } else { Some(Sends::Children(targets, message)) }
            }
        }
    }

    /// The request that a lock of the rule keeps.
    fn in_hand(&self, protocol: &Protocol, rule: &Rule, sends: &Sends) -> Option<Message> {
        let request = self.msg.filter(|message| protocol.class(message.id).is_request());
        match rule.take {
            Take::Me(_) => request,
            Take::Parent(_) => request.or(self.kept),
            Take::Kids(_) => self.kept,
            Take::Nothing => match sends {
                Sends::Nothing => None,
                Sends::Answer(message)
                | Sends::Child(_, message)
                | Sends::UpRequest(message)
                | Sends::UpResponse(message)
                | Sends::Children(_, message) => Some(*message),
            },
        }
    }

    fn lock(&self, origin: Origin, side: Side, request: Option<Message>, sends: &Sends) -> Option<Lock> {
        let by = match origin {
            Origin::Child => self.requester?,
            Origin::Parent => By::Parent,
            Origin::Own => By::Own,
        };
        let awaited = match sends {
            Sends::Children(targets, _) if side == Side::Down => *targets,
            _ => ChildSet(0),
        };
        Some(Lock { by, request: request?, awaited })
    }
}

impl Object {
    fn new(document: &Document, place: usize) -> Object {
        let node = &document.nodes[place];
        let part = document.protocol.part(node.kind);
        Object {
            fields: part.fields.iter().map(|(_, status)| *status).collect(),
            dir: part.dir.map_or(Vec::new(), |status| vec![status; node.children.len()]),
            val: 0,
            up: None,
            down: None,
            up_requests: VecDeque::new(),
            up_responses: VecDeque::new(),
            from_parent: VecDeque::new(),
            requests: VecDeque::new(),
            answers: VecDeque::new(),
        }
    }

    fn set(&mut self, rule: &Rule, view: &View, val: Option<u64>) {
        if let Some(val) = val {
            self.val = val;
        }
        let mut me = None;
        for set in &rule.sets {
            match *set {
                Assign::Field(field, status) => self.fields[field as usize] = status,
                Assign::Val(_) => {}
                Assign::Me(status) => me = Some(status),
                Assign::Targets(status) => {
                    for place in view.awaited.into_iter().flat_map(ChildSet::iter) {
                        self.dir[place] = status;
                    }
                }
            }
        }
        if let (Some(status), Some(By::Child(place))) = (me, view.requester) {
            self.dir[place] = status;
        }
    }

    fn side(&mut self, side: Side) -> &mut Option<Lock> {
        match side {
            Side::Up => &mut self.up,
            Side::Down => &mut self.down,
        }
    }

    fn is_idle(&self) -> bool {
        self.up.is_none()
            && self.down.is_none()
            && [&self.up_requests, &self.up_responses, &self.from_parent, &self.requests]
                .iter()
                .all(|list| list.is_empty())
    }
}

/// What a firing does, where it is possible.
fn plan(
    document: &Document,
    line: &[Object],
    object: usize,
    rule: &Rule,
    from: Option<usize>,
    place: u32,
) -> Option<Plan> {
    let node = &document.nodes[object];
    let here = &line[object];
    let view = View::new(line, &node.children, here, rule, from, place)?;
    if !need_holds(rule.up, &here.up) || !need_holds(rule.down, &here.down) {
        return None;
    }
    if !rule.guard.iter().all(|atom| view.holds(here, *atom)) {
        return None;
    }
    let val = view.new_value(here, &rule.sets)?;
    let sends = view.sends(&document.protocol, node.kind, here, rule)?;
    let lock = match rule.lock {
        None => None,
        Some((side, origin)) => {
            let request = view.in_hand(&document.protocol, rule, &sends);
            Some((side, view.lock(origin, side, request, &sends)?))
        }
    };
    Some(Plan { view, val, lock, sends })
}

impl System {
    pub fn new(document: &Document) -> System {
        let line = || (0..document.nodes.len()).map(|place| Object::new(document, place)).collect();
        let mut lines: Vec<Vec<Object>> = (0..document.work.lines).map(|_| line()).collect();
        for entry in &document.work.entries {
            let message = |request: &Request| Message { id: request.message, value: request.value, number: 0 };
            let requests = entry.requests.iter().map(message);
            lines[entry.line as usize][entry.object as usize].requests.extend(requests);
        }
        System { lines }
    }

    /// Makes the firing at a place of the history, where it is possible.
    pub fn step(&mut self, document: &Document, firing: &Firing, place: u32) -> Option<Fired> {
        let line = firing.line as usize;
        let object = firing.object as usize;
        if line >= self.lines.len() {
            return None;
        }
        let node = document.nodes.get(object)?;
        let rule = document.protocol.part(node.kind).rule(firing.rule)?;
        let takes_from_child = matches!(rule.take, Take::Me(_)) && node.kind != Kind::Leaf;
        let from = match firing.from {
            Some(child) if takes_from_child => {
                Some(node.children.iter().position(|other| *other == child as usize)?)
            }
            None if !takes_from_child => None,
            _ => return None,
        };
        Some(self.fire(document, line, object, rule, from, place)?.0)
    }

    /// Whether a rule can fire at an object that is there.
    pub fn can(&self, document: &Document, line: usize, object: usize, rule: &Rule, from: Option<usize>) -> bool {
        plan(document, &self.lines[line], object, rule, from, 0).is_some()
    }

    /// Makes the firing of a rule at an object that is there, where it is possible, and tells whom it reached.
    pub fn fire(
        &mut self,
        document: &Document,
        line: usize,
        object: usize,
        rule: &Rule,
        from: Option<usize>,
        place: u32,
    ) -> Option<(Fired, Reached)> {
        let plan = plan(document, &self.lines[line], object, rule, from, place)?;
        let is_upward = matches!(rule.lock, Some((Side::Up, _)));
        let fired = Fired { number: plan.view.number, is_upward };
        let reached = match plan.sends {
            Sends::Nothing | Sends::Answer(_) => Reached::Nobody,
            Sends::UpRequest(_) | Sends::UpResponse(_) => Reached::Parent,
            Sends::Child(place, _) => Reached::Children(ChildSet(1 << place)),
            Sends::Children(targets, _) => Reached::Children(targets),
        };
        fire(&mut self.lines[line], &document.nodes[object].children, object, rule, from, plan);
        Some((fired, reached))
    }

    /// Whether only answers are left and no lock is held.
    pub fn is_quiet(&self) -> bool {
        self.lines.iter().flatten().all(Object::is_idle)
    }
}

/// Makes a possible firing.
fn fire(line: &mut [Object], children: &[usize], object: usize, rule: &Rule, from: Option<usize>, plan: Plan) {
    match (rule.take, from) {
        (Take::Me(_), Some(place)) => {
            line[children[place]].up_requests.pop_front();
        }
        (Take::Me(_), None) => {
            line[object].requests.pop_front();
        }
        (Take::Parent(_), _) => {
            line[object].from_parent.pop_front();
        }
        (Take::Kids(_), _) => {
            for place in plan.view.awaited.into_iter().flat_map(ChildSet::iter) {
                line[children[place]].up_responses.pop_front();
            }
        }
        (Take::Nothing, _) => {}
    }
    let here = &mut line[object];
    here.set(rule, &plan.view, plan.val);
    if let Some(side) = rule.free {
        *here.side(side) = None;
    }
    if let Some((side, lock)) = plan.lock {
        *here.side(side) = Some(lock);
    }
    match plan.sends {
        Sends::Nothing => {}
        Sends::Answer(message) => here.answers.push_back(message),
        Sends::UpRequest(message) => here.up_requests.push_back(message),
        Sends::UpResponse(message) => here.up_responses.push_back(message),
        Sends::Child(place, message) => line[children[place]].from_parent.push_back(message),
        Sends::Children(targets, message) => {
            for place in targets.iter() {
                line[children[place]].from_parent.push_back(message);
            }
        }
    }
}
