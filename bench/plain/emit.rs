//! The modules of an accepted protocol on a tree: for each firing that can be named one rule, over the registers and
//! queues of one line.

use crate::document::Node;
use crate::modtext::{Act, Action, Atom, ModRule, ModValue, Modules};
use crate::protocol::{
    Assign, Atom as Condition, Class, Goal, Kind, MessageId, Need, Origin, Protocol, Rule, Side, StatusSet, Take, Value,
};

/// Whom a lock is held for, as a number; a child is this plus its object.
const FREE: u64 = 0;
const OWN: u64 = 1;
const PARENT: u64 = 2;
const PROCESSOR: u64 = 3;

/// Where the registers and queues of an object stand.
#[derive(Clone, Copy, Default)]
struct Place {
    /// The first field.
    fields: u32,
    val: u32,
    /// The origins of the locks; the id and the value of the request follow each.
    up: u32,
    down: u32,
    /// The entry in the parent's directory; whether the object is awaited follows.
    entry: u32,
    up_requests: u32,
    up_responses: u32,
    from_parent: u32,
    requests: u32,
    answers: u32,
}

impl Place {
    fn awaited(self) -> u32 {
        self.entry + 1
    }
}

/// The registers and the queues in order, and where those of each object stand.
#[derive(Default)]
struct Layout {
    registers: Vec<(String, u64)>,
    queues: Vec<String>,
    places: Vec<Place>,
}

impl Layout {
    fn register(&mut self, name: &str, object: usize, value: u64) -> u32 {
        self.registers.push((format!("{name}_{object}"), value));
        self.registers.len() as u32 - 1
    }

    fn queue(&mut self, name: &str, object: usize) -> u32 {
        self.queues.push(format!("{name}_{object}"));
        self.queues.len() as u32 - 1
    }

    fn lock(&mut self, names: [&str; 3], object: usize) -> u32 {
        let [origin, id, value] = names.map(|name| self.register(name, object, 0));
        debug_assert!(id == origin + 1 && value == origin + 2);
        origin
    }

    fn add_object(&mut self, protocol: &Protocol, nodes: &[Node], object: usize) {
        let node = &nodes[object];
        let part = protocol.part(node.kind);
        self.places[object].fields = self.registers.len() as u32;
        for (number, (_, status)) in part.fields.iter().enumerate() {
            self.register(&format!("f{number}"), object, u64::from(*status));
        }
        self.places[object].val = self.register("v", object, 0);
        self.places[object].up = self.lock(["uo", "ui", "uv"], object);
        self.places[object].down = self.lock(["do", "di", "dv"], object);
        for &child in &node.children {
            self.places[child].entry = self.register("d", child, part.dir.map_or(0, u64::from));
            self.register("w", child, 0);
        }
        if node.kind != Kind::Root {
            self.places[object].up_requests = self.queue("qr", object);
            self.places[object].up_responses = self.queue("qs", object);
            self.places[object].from_parent = self.queue("qd", object);
        }
        if node.kind == Kind::Leaf {
            self.places[object].requests = self.queue("xr", object);
            self.places[object].answers = self.queue("xa", object);
        }
    }

    fn new(protocol: &Protocol, nodes: &[Node]) -> Layout {
        let mut layout = Layout { places: vec![Place::default(); nodes.len()], ..Layout::default() };
        for object in 0..nodes.len() {
            layout.add_object(protocol, nodes, object);
        }
        layout
    }
}

/// A rule at an object, with its child where it takes from one.
struct Emitter<'a> {
    protocol: &'a Protocol,
    places: &'a [Place],
    node: &'a Node,
    object: usize,
    rule: &'a Rule,
    child: Option<usize>,
}

/// One atom for each status of a set, in order.
fn one_of(register: u32, set: StatusSet) -> impl Iterator<Item = Atom> {
    (0..8).filter(move |status| set.has(*status)).map(move |status| Atom::Is(register, u64::from(status)))
}

fn of_child(child: usize) -> u64 {
    PROCESSOR + child as u64
}

fn always(act: Act) -> Action {
    Action { condition: Vec::new(), act }
}

impl Emitter<'_> {
    fn here(&self) -> Place {
        self.places[self.object]
    }

    fn queue(&self) -> Option<u32> {
        match self.rule.take {
            Take::Me(_) => Some(self.child.map_or(self.here().requests, |child| self.places[child].up_requests)),
            Take::Parent(_) => Some(self.here().from_parent),
            Take::Kids(_) | Take::Nothing => None,
        }
    }

    /// The origin of the lock that tells who the requester is, where that isn't fixed.
    fn asker(&self) -> Option<u32> {
        match self.rule.take {
            Take::Parent(_) => Some(self.here().up),
            Take::Kids(_) => Some(self.here().down),
            Take::Me(_) | Take::Nothing => None,
        }
    }

    fn children(&self) -> impl Iterator<Item = usize> + '_ {
        self.node.children.iter().copied()
    }

    fn others(&self) -> impl Iterator<Item = usize> + '_ {
        self.children().filter(|child| Some(*child) != self.child)
    }

    fn entry(&self, child: usize, set: StatusSet) -> impl Iterator<Item = Atom> + use<> {
        one_of(self.places[child].entry, set)
    }

    fn is_awaited(&self, child: usize) -> Atom {
        Atom::Is(self.places[child].awaited(), 1)
    }

    // Clauses

    fn clauses(&self) -> Vec<Vec<Atom>> {
        let mut clauses = Vec::new();
        self.put_take(&mut clauses);
        self.put_need(&mut clauses, self.here().up, self.rule.up);
        self.put_need(&mut clauses, self.here().down, self.rule.down);
        for condition in &self.rule.guard {
            self.put_condition(&mut clauses, *condition);
        }
        match self.rule.send.map(|send| send.goal) {
            Some(Goal::Kids(set)) => self.put_condition(&mut clauses, Condition::KidsAny(set)),
            Some(Goal::Others(set)) => self.put_condition(&mut clauses, Condition::OthersAny(set)),
            _ => {}
        }
        clauses
    }

    fn put_take(&self, clauses: &mut Vec<Vec<Atom>>) {
        match (self.rule.take, self.queue()) {
            (Take::Me(id) | Take::Parent(id), Some(queue)) => clauses.push(vec![Atom::Head(queue, u32::from(id))]),
            (Take::Kids(id), _) => {
                clauses.extend(self.children().map(|child| {
                    let place = self.places[child];
                    vec![Atom::Is(place.awaited(), 0), Atom::Head(place.up_responses, u32::from(id))]
                }));
                clauses.push(self.children().map(|child| self.is_awaited(child)).collect());
            }
            _ => {}
        }
    }

    fn put_need(&self, clauses: &mut Vec<Vec<Atom>>, origin: u32, need: Need) {
        clauses.push(match need {
            Need::Any => return,
            Need::Free => vec![Atom::Is(origin, FREE)],
            Need::Own => vec![Atom::Is(origin, OWN)],
            Need::Parent => vec![Atom::Is(origin, PARENT)],
            Need::Child if self.node.kind == Kind::Leaf => vec![Atom::Is(origin, PROCESSOR)],
            Need::Child => self.children().map(|child| Atom::Is(origin, of_child(child))).collect(),
        });
    }

    fn put_condition(&self, clauses: &mut Vec<Vec<Atom>>, condition: Condition) {
        let led_by = |first: Atom, rest: &mut dyn Iterator<Item = Atom>| std::iter::once(first).chain(rest).collect();
        match (condition, self.asker()) {
            (Condition::Field(field, set), _) => {
                clauses.push(one_of(self.here().fields + u32::from(field), set).collect());
            }
            (Condition::Asked(id), asker) => {
                clauses.extend(asker.map(|origin| vec![Atom::Is(origin + 1, u64::from(id))]));
            }
            (Condition::KidsAll(set), _) => {
                clauses.extend(self.children().map(|child| self.entry(child, set).collect()))
            }
            (Condition::KidsAny(set), _) => {
                clauses.push(self.children().flat_map(|child| self.entry(child, set)).collect());
            }
            (Condition::Me(set), None) => {
                clauses.extend(self.child.map(|child| self.entry(child, set).collect()));
            }
            (Condition::OthersAll(set), None) => {
                clauses.extend(self.others().map(|child| self.entry(child, set).collect()));
            }
            (Condition::OthersAny(set), None) => {
                clauses.push(self.others().flat_map(|child| self.entry(child, set)).collect());
            }
            (Condition::Me(set), Some(origin)) => clauses.extend(
                self.children().map(|child| led_by(Atom::Not(origin, of_child(child)), &mut self.entry(child, set))),
            ),
            (Condition::OthersAll(set), Some(origin)) => clauses.extend(
                self.children().map(|child| led_by(Atom::Is(origin, of_child(child)), &mut self.entry(child, set))),
            ),
            (Condition::OthersAny(set), Some(origin)) => clauses.extend(self.children().map(|child| {
                let others = self.children().filter(|other| *other != child);
                let mut entries = others.flat_map(|other| self.entry(other, set));
                led_by(Atom::Not(origin, of_child(child)), &mut entries)
            })),
        }
    }

    // Actions

    fn actions(&self) -> Vec<Action> {
        let mut actions = Vec::new();
        match self.rule.take {
            Take::Kids(_) => actions.extend(self.children().map(|child| Action {
                condition: vec![self.is_awaited(child)],
                act: Act::Deq(self.places[child].up_responses),
            })),
            _ => actions.extend(self.queue().map(|queue| always(Act::Deq(queue)))),
        }
        self.put_sets(&mut actions);
        self.put_free(&mut actions);
        self.put_lock(&mut actions);
        self.put_send(&mut actions);
        actions
    }

    /// The children that may be the requester, each with the condition that it is.
    fn requesters(&self) -> Vec<(usize, Vec<Atom>)> {
        match (self.asker(), self.child) {
            (Some(origin), _) => {
                self.children().map(|child| (child, vec![Atom::Is(origin, of_child(child))])).collect()
            }
            (None, child) => child.map(|child| (child, Vec::new())).into_iter().collect(),
        }
    }

    fn put_sets(&self, actions: &mut Vec<Action>) {
        for set in &self.rule.sets {
            match *set {
                Assign::Field(field, status) => {
                    let register = self.here().fields + u32::from(field);
                    actions.push(always(Act::Set(register, ModValue::Number(u64::from(status)))));
                }
                Assign::Val(value) => {
                    self.put_with(actions, &[], value, |value| Act::Set(self.here().val, value));
                }
                Assign::Me(_) | Assign::Targets(_) => {}
            }
        }
        let entry = |child: usize, status| Act::Set(self.places[child].entry, ModValue::Number(u64::from(status)));
        for set in &self.rule.sets {
            if let Assign::Targets(status) = *set {
                actions.extend(
                    self.children()
                        .map(|child| Action { condition: vec![self.is_awaited(child)], act: entry(child, status) }),
                );
            }
        }
        for set in &self.rule.sets {
            if let Assign::Me(status) = *set {
                let requesters = self.requesters().into_iter();
                actions.extend(requesters.map(|(child, condition)| Action { condition, act: entry(child, status) }));
            }
        }
    }

    /// What is done with a value; with that of the least awaited child once for each child that may be it.
    fn put_with(&self, actions: &mut Vec<Action>, condition: &[Atom], value: Value, act: impl Fn(ModValue) -> Act) {
        if !matches!(value, Value::Rs) {
            actions.push(Action { condition: condition.to_vec(), act: act(self.value(value)) });
            return;
        }
        for (place, child) in self.children().enumerate() {
            let before = self.children().take(place).map(|other| Atom::Is(self.places[other].awaited(), 0));
            let condition = condition.iter().copied().chain([self.is_awaited(child)]).chain(before).collect();
            actions.push(Action { condition, act: act(ModValue::Front(self.places[child].up_responses)) });
        }
    }

    fn value(&self, value: Value) -> ModValue {
        let found = match value {
            Value::Val => Some(ModValue::Register(self.here().val)),
            Value::Msg => self.queue().map(ModValue::Front),
            Value::Kept => self.asker().map(|origin| ModValue::Register(origin + 2)),
            Value::Rs | Value::Zero => None,
        };
        found.unwrap_or(ModValue::Number(0))
    }

    fn put_free(&self, actions: &mut Vec<Action>) {
        let (first, awaited) = match self.rule.free {
            None => return,
            Some(Side::Up) => (self.here().up, Vec::new()),
            Some(Side::Down) => (self.here().down, self.children().map(|child| self.places[child].awaited()).collect()),
        };
        let registers = (first..first + 3).chain(awaited);
        actions.extend(registers.map(|register| always(Act::Set(register, ModValue::Number(0)))));
    }

    /// The origin, the id and the value that a lock gets.
    fn kept_by_lock(&self, origin: Origin) -> [ModValue; 3] {
        let number = ModValue::Number(match origin {
            Origin::Own => OWN,
            Origin::Parent => PARENT,
            Origin::Child => self.child.map_or(PROCESSOR, of_child),
        });
        let id = |id: MessageId| ModValue::Number(u64::from(id));
        match (self.rule.take, self.rule.send) {
            (Take::Parent(taken), _) if !self.protocol.class(taken).is_request() => {
                [0, 1, 2].map(|more| ModValue::Register(self.here().up + more))
            }
            (Take::Me(taken) | Take::Parent(taken) | Take::Kids(taken), _) => {
                [number, id(taken), self.value(Value::Msg)]
            }
            (Take::Nothing, Some(send)) => [number, id(send.message), self.value(send.value)],
            (Take::Nothing, None) => [number, id(0), ModValue::Number(0)],
        }
    }

    fn put_lock(&self, actions: &mut Vec<Action>) {
        let Some((side, origin)) = self.rule.lock else { return };
        let first = if side == Side::Up { self.here().up } else { self.here().down };
        actions.extend(
            (first..).zip(self.kept_by_lock(origin)).map(|(register, value)| always(Act::Set(register, value))),
        );
        if side == Side::Down {
            actions.extend(self.targets().into_iter().map(|(child, condition)| Action {
                condition,
                act: Act::Set(self.places[child].awaited(), ModValue::Number(1)),
            }));
        }
    }

    /// The children that may be targets, once for each status that makes them one, with the condition that it does.
    fn targets(&self) -> Vec<(usize, Vec<Atom>)> {
        let (set, children, asker) = match self.rule.send.map(|send| send.goal) {
            Some(Goal::Kids(set)) => (set, self.children().collect(), None),
            Some(Goal::Others(set)) => (set, self.others().collect::<Vec<usize>>(), self.asker()),
            _ => return Vec::new(),
        };
        let of = |child: usize| {
            let is_other = asker.map(|origin| Atom::Not(origin, of_child(child)));
            self.entry(child, set).map(move |entry| (child, is_other.into_iter().chain([entry]).collect()))
        };
        children.into_iter().flat_map(of).collect()
    }

    fn put_send(&self, actions: &mut Vec<Action>) {
        let Some(send) = self.rule.send else { return };
        let goals: Vec<(u32, Vec<Atom>)> = match send.goal {
            Goal::Me if self.node.kind == Kind::Leaf => vec![(self.here().answers, Vec::new())],
            Goal::Parent if self.protocol.class(send.message) == Class::UpRsp => {
                vec![(self.here().up_responses, Vec::new())]
            }
            Goal::Parent => vec![(self.here().up_requests, Vec::new())],
            Goal::Me => self.to_children(self.requesters()),
            Goal::Kids(_) | Goal::Others(_) => self.to_children(self.targets()),
        };
        for (queue, condition) in goals {
            self.put_with(actions, &condition, send.value, |value| Act::Enq(queue, u32::from(send.message), value));
        }
    }

    fn to_children(&self, chosen: Vec<(usize, Vec<Atom>)>) -> Vec<(u32, Vec<Atom>)> {
        chosen.into_iter().map(|(child, condition)| (self.places[child].from_parent, condition)).collect()
    }
}

/// The modules of a protocol on a lawful tree.
pub fn modules<'a>(protocol: &'a Protocol, nodes: &[Node]) -> Modules<'a> {
    let layout = Layout::new(protocol, nodes);
    let mut rules = Vec::new();
    for (object, node) in nodes.iter().enumerate() {
        for rule in &protocol.part(node.kind).rules {
            let from_child = matches!(rule.take, Take::Me(_)) && node.kind != Kind::Leaf;
            let children: Vec<Option<usize>> =
                if from_child { node.children.iter().copied().map(Some).collect() } else { vec![None] };
            rules.extend(children.into_iter().map(|child| {
                let emitter = Emitter { protocol, places: &layout.places, node, object, rule, child };
                ModRule {
                    object: object as u32,
                    name: &protocol.rule_names[rule.name as usize],
                    child: child.map(|child| child as u32),
                    is_spontaneous: matches!(rule.take, Take::Nothing),
                    clauses: emitter.clauses(),
                    actions: emitter.actions(),
                }
            }));
        }
    }
    Modules { name: &protocol.name, registers: layout.registers, queues: layout.queues, rules }
}
