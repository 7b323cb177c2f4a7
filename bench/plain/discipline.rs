//! The discipline of protocols: each rule has a template, and its requests up are stable.

use crate::protocol::{
    Assign, Atom, Class, Goal, Kind, MessageId, Need, Origin, Part, Protocol, Rule, Side, Status, StatusSet, Take,
    Value,
};
use std::fmt::Write;

#[derive(Clone, Copy, PartialEq, Eq)]
enum Template {
    ImmSelf,
    ImmDown,
    ImmUp,
    RqUp,
    RqUpSelf,
    RqUpDown,
    RqDownSelf,
    RqDownDown,
    RsDown,
    RsDownSelf,
    RsDownRqDown,
    RsUpDown,
    RsUpUp,
    RsUpSelf,
}

impl Template {
    /// The template that a rule's take, locks and send name, for a rule whose messages have the right classes.
    fn of(protocol: &Protocol, rule: &Rule) -> Option<Template> {
        use {Origin::*, Side::*, Template::*};
        let is_request = |message: MessageId| protocol.class(message).is_request();
        let goal = rule.send.map(|send| send.goal);
        let to_me = matches!(goal, Some(Goal::Me));
        let to_kids = matches!(goal, Some(Goal::Kids(_)));
        let to_others = matches!(goal, Some(Goal::Others(_)));
        let up_request = rule.send.is_some_and(|send| matches!(send.goal, Goal::Parent) && is_request(send.message));
        let up_response = matches!(goal, Some(Goal::Parent)) && !up_request;
        let nothing = goal.is_none();
        Some(match (rule.take, rule.free, rule.lock) {
            (Take::Nothing, None, None) if nothing => ImmSelf,
            (Take::Nothing, None, Some((Up, Own))) if up_request => RqUpSelf,
            (Take::Nothing, None, Some((Down, Own))) if to_kids => RqDownSelf,
            (Take::Me(_), None, None) if to_me => ImmDown,
            (Take::Me(_), None, Some((Up, Child))) if up_request => RqUp,
            (Take::Me(_), None, Some((Down, Child))) if to_others => RqUpDown,
            (Take::Parent(id), None, None) if is_request(id) && up_response => ImmUp,
            (Take::Parent(id), None, Some((Down, Parent))) if is_request(id) && to_kids => RqDownDown,
            (Take::Parent(id), Some(Up), None) if !is_request(id) && to_me => RsDown,
            (Take::Parent(id), Some(Up), None) if !is_request(id) && nothing => RsDownSelf,
            (Take::Parent(id), Some(Up), Some((Down, Child))) if !is_request(id) && to_others => RsDownRqDown,
            (Take::Kids(_), Some(Down), None) if to_me => RsUpDown,
            (Take::Kids(_), Some(Down), None) if up_response => RsUpUp,
            (Take::Kids(_), Some(Down), None) if nothing => RsUpSelf,
            _ => return None,
        })
    }

    /// What the uplock and the downlock must be.
    fn needs(self) -> (Need, Need) {
        use Template::*;
        match self {
            ImmSelf | ImmDown | RqUp | RqUpSelf | RqUpDown | RqDownSelf => (Need::Free, Need::Free),
            ImmUp | RqDownDown => (Need::Any, Need::Free),
            RsDown | RsDownRqDown => (Need::Child, Need::Free),
            RsDownSelf => (Need::Own, Need::Free),
            RsUpDown => (Need::Any, Need::Child),
            RsUpUp => (Need::Any, Need::Parent),
            RsUpSelf => (Need::Any, Need::Own),
        }
    }

    fn may_set(self) -> bool {
        use Template::*;
        !matches!(self, RqUp | RqUpSelf | RqUpDown | RqDownSelf | RqDownDown)
    }

    /// Whether the guard may not read the requester's entry and the others.
    fn is_narrow(self) -> bool {
        use Template::*;
        matches!(self, RqUp | RqUpSelf | ImmUp | RqDownDown | RsUpUp)
    }
}

/// A clause of the discipline, by its name.
type Clause = &'static str;

/// A state as far as conditions on no single child see it: the fields, and the statuses that occur among the children.
#[derive(Clone, Copy)]
struct Abstract {
    fields: [Status; 3],
    kids: StatusSet,
}

/// What can come between a request up and its response: a rule that answers the parent at once, or one that asks the
/// children and one that answers then.
struct Partner<'a> {
    first: &'a Rule,
    second: Option<&'a Rule>,
}

pub struct Refusal<'a> {
    kind: Kind,
    rule: &'a Rule,
    clause: Clause,
    breach: Option<(Partner<'a>, Abstract)>,
}

fn reads_requester(atom: &Atom) -> bool {
    matches!(atom, Atom::Me(_) | Atom::OthersAll(_) | Atom::OthersAny(_))
}

fn level_fits(kind: Kind, rule: &Rule) -> bool {
    let goal = rule.send.map(|send| send.goal);
    match kind {
        Kind::Root => !matches!(rule.take, Take::Parent(_)) && !matches!(goal, Some(Goal::Parent)),
        Kind::Mid => true,
        Kind::Leaf => !matches!(rule.take, Take::Kids(_)) && !matches!(goal, Some(Goal::Kids(_) | Goal::Others(_))),
    }
}

fn classes_fit(protocol: &Protocol, kind: Kind, rule: &Rule) -> bool {
    use Class::*;
    let is_leaf = kind == Kind::Leaf;
    let take_fits = match rule.take {
        Take::Nothing => true,
        Take::Me(id) => protocol.class(id) == if is_leaf { ExtReq } else { UpReq },
        Take::Parent(id) => matches!(protocol.class(id), DownReq | DownRsp),
        Take::Kids(id) => protocol.class(id) == UpRsp,
    };
    let send_fits = rule.send.is_none_or(|send| match (send.goal, protocol.class(send.message)) {
        (Goal::Me, class) => class == if is_leaf { ExtRsp } else { DownRsp },
        (Goal::Parent, class) => matches!(class, UpReq | UpRsp),
        (Goal::Kids(_) | Goal::Others(_), class) => class == DownReq,
    });
    take_fits && send_fits
}

/// Whether all that the rule names is there wherever it may fire.
fn names_fit(protocol: &Protocol, kind: Kind, rule: &Rule) -> bool {
    let is_leaf = kind == Kind::Leaf;
    let takes_from_kids = matches!(rule.take, Take::Kids(_));
    let has_requester =
        !is_leaf && (matches!(rule.take, Take::Me(_)) || rule.up == Need::Child || rule.down == Need::Child);
    let has_kept = takes_from_kids || matches!(rule.take, Take::Parent(id) if !protocol.class(id).is_request());
    let value_fits = |value: Value| match value {
        Value::Val | Value::Zero => true,
        Value::Msg => matches!(rule.take, Take::Me(_) | Take::Parent(_)),
        Value::Kept => has_kept,
        Value::Rs => takes_from_kids,
    };
    let atom_fits = |atom: &Atom| match *atom {
        Atom::Field(_, _) => true,
        Atom::Me(_) | Atom::OthersAll(_) | Atom::OthersAny(_) => has_requester,
        Atom::KidsAll(_) | Atom::KidsAny(_) => !is_leaf,
        Atom::Asked(id) => has_kept && protocol.class(id).is_request(),
    };
    let set_fits = |set: &Assign| match *set {
        Assign::Field(_, _) => true,
        Assign::Val(value) => value_fits(value),
        Assign::Me(_) => has_requester,
        Assign::Targets(_) => takes_from_kids,
    };
    rule.guard.iter().all(atom_fits)
        && rule.sets.iter().all(set_fits)
        && rule.send.is_none_or(|send| value_fits(send.value))
}

/// The template of a rule, or the first of the clauses before the last that it breaks.
fn template(protocol: &Protocol, kind: Kind, rule: &Rule) -> Result<Template, Clause> {
    if !level_fits(kind, rule) {
        return Err("level");
    }
    if !classes_fit(protocol, kind, rule) {
        return Err("class");
    }
    let template = Template::of(protocol, rule).ok_or("shape")?;
    if (rule.up, rule.down) != template.needs() {
        return Err("locks");
    }
    if !template.may_set() && !rule.sets.is_empty() {
        return Err("silent");
    }
    if template.is_narrow() && rule.guard.iter().any(reads_requester) {
        return Err("scope");
    }
    if names_fit(protocol, kind, rule) { Ok(template) } else { Err("names") }
}

impl Abstract {
    fn holds(&self, guard: &[Atom], asked: Option<MessageId>) -> bool {
        guard.iter().all(|atom| match *atom {
            Atom::Field(field, set) => set.has(self.fields[field as usize]),
            Atom::KidsAll(set) => self.kids.0 & !set.0 == 0,
            Atom::KidsAny(set) => self.kids.0 & set.0 != 0,
            Atom::Asked(id) => asked == Some(id),
            Atom::Me(_) | Atom::OthersAll(_) | Atom::OthersAny(_) => false,
        })
    }

    fn after(mut self, sets: &[Assign], targets: StatusSet) -> Abstract {
        for set in sets {
            match *set {
                Assign::Field(field, status) => self.fields[field as usize] = status,
                Assign::Targets(status) => self.kids.0 = self.kids.0 & !targets.0 | 1 << status,
                Assign::Val(_) | Assign::Me(_) => {}
            }
        }
        self
    }
}

/// The abstract states of a kind, in order.
fn abstract_states(protocol: &Protocol, kind: Kind) -> Vec<Abstract> {
    let statuses = protocol.statuses.len() as u8;
    let fields = protocol.part(kind).fields.len();
    let of_field = |field: usize| 0..if field < fields { statuses } else { 1 };
    let kids = if kind == Kind::Leaf { 0..1 } else { 1..1 << statuses };
    let mut states = Vec::new();
    for first in of_field(0) {
        for second in of_field(1) {
            for third in of_field(2) {
                let fields = [first, second, third];
                states.extend(kids.clone().map(|kids| Abstract { fields, kids: StatusSet(kids) }));
            }
        }
    }
    states
}

impl<'a> Partner<'a> {
    /// The targets of the rule that asks the children.
    fn targets(&self) -> StatusSet {
        match self.first.send.map(|send| send.goal) {
            Some(Goal::Kids(set)) => set,
            _ => StatusSet(0),
        }
    }

    /// The rule that answers the parent.
    fn last(&self) -> &'a Rule {
        self.second.unwrap_or(self.first)
    }

    fn can_happen(&self, at: Abstract) -> bool {
        let asked = match self.first.take {
            Take::Parent(id) => Some(id),
            _ => None,
        };
        at.holds(&self.first.guard, None)
            && self.second.is_none_or(|second| at.kids.0 & self.targets().0 != 0 && at.holds(&second.guard, asked))
    }

    /// Whether a request up that is possible here isn't any more after this, or then carries an old value.
    fn breaks(&self, upward: &Rule, at: Abstract) -> bool {
        let sends_value = upward.send.is_some_and(|send| matches!(send.value, Value::Val));
        let changes_value = |set: &Assign| matches!(set, Assign::Val(value) if !matches!(value, Value::Val));
        self.can_happen(at)
            && (!at.after(&self.last().sets, self.targets()).holds(&upward.guard, None)
                || sends_value && self.last().sets.iter().any(changes_value))
    }
}

/// The partners of a kind's requests up, in order. Only rules that break no clause but the last are partners.
fn partners<'a>(part: &'a Part, templates: &[Result<Template, Clause>]) -> Vec<Partner<'a>> {
    let rules = || part.rules.iter().zip(templates);
    let answers = || rules().filter(|(_, template)| **template == Ok(Template::RsUpUp)).map(|(rule, _)| rule);
    let mut partners = Vec::new();
    for (first, template) in rules() {
        match template {
            Ok(Template::ImmUp) => partners.push(Partner { first, second: None }),
            Ok(Template::RqDownDown) => {
                partners.extend(answers().map(|second| Partner { first, second: Some(second) }))
            }
            _ => {}
        }
    }
    partners
}

/// The first rule of a kind that breaks a clause, and which.
fn first_broken_of(protocol: &Protocol, kind: Kind) -> Option<Refusal<'_>> {
    let part = protocol.part(kind);
    let templates: Vec<_> = part.rules.iter().map(|rule| template(protocol, kind, rule)).collect();
    let states = abstract_states(protocol, kind);
    for (rule, template) in part.rules.iter().zip(&templates) {
        match *template {
            Err(clause) => return Some(Refusal { kind, rule, clause, breach: None }),
            Ok(Template::RqUp | Template::RqUpSelf) => {
                let possible: Vec<_> = states.iter().copied().filter(|at| at.holds(&rule.guard, None)).collect();
                let breach = partners(part, &templates).into_iter().find_map(|partner| {
                    let at = possible.iter().copied().find(|at| partner.breaks(rule, *at))?;
                    Some((partner, at))
                });
                if breach.is_some() {
                    return Some(Refusal { kind, rule, clause: "stable", breach });
                }
            }
            Ok(_) => {}
        }
    }
    None
}

/// The first rule of a protocol that breaks a clause of the discipline, and which.
pub fn first_broken(protocol: &Protocol) -> Option<Refusal<'_>> {
    [Kind::Root, Kind::Mid, Kind::Leaf].into_iter().find_map(|kind| first_broken_of(protocol, kind))
}

impl Refusal<'_> {
    pub fn text(&self, protocol: &Protocol) -> String {
        let name = |rule: &Rule| &protocol.rule_names[rule.name as usize];
        let mut text = format!("refused {} {} {}", self.kind.name(), name(self.rule), self.clause);
        if let Some((partner, at)) = &self.breach {
            let _ = write!(text, " with {}", name(partner.first));
            if let Some(second) = partner.second {
                let _ = write!(text, " then {}", name(second));
            }
            let _ = write!(text, " at {}", self.state_text(protocol, *at));
        }
        text + "\n"
    }

    fn state_text(&self, protocol: &Protocol, at: Abstract) -> String {
        let fields = protocol.part(self.kind).fields.iter().zip(at.fields);
        let mut words: Vec<String> =
            fields.map(|((name, _), status)| format!("{name}={}", protocol.statuses[status as usize])).collect();
        if self.kind != Kind::Leaf {
            let kids = (0..).zip(&protocol.statuses).filter(|(status, _)| at.kids.has(*status));
            let names: Vec<&str> = kids.map(|(_, name)| name.as_str()).collect();
            words.push(format!("kids={}", names.join(",")));
        }
        if words.is_empty() { "-".to_string() } else { words.join(" ") }
    }
}
