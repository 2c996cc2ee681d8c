//! 01's rules stated once more for the tests, as bare quantifiers over a containment.
#![allow(dead_code)]

use second::{Answer, Command, Explanation, Policy, Prohibition, Row};
use std::collections::BTreeSet;

/// Containment as rows of 512 bits, made by closing the assignments over every middle element.
pub struct Closure(Vec<[u64; 8]>);

impl Closure {
    pub fn of(policy: &Policy) -> Closure {
        let mut rows = vec![[0u64; 8]; 512];
        let mut set = |x: u16, y: u16| rows[x as usize][y as usize / 64] |= 1 << (y % 64);
        for id in policy.elements.keys() {
            set(*id, *id);
        }
        for (child, container) in &policy.assignments {
            set(*child, *container);
        }
        for middle in 0..512 {
            let upper = rows[middle];
            for row in rows.iter_mut() {
                if row[middle / 64] >> (middle % 64) & 1 == 1 {
                    for (part, more) in row.iter_mut().zip(upper) {
                        *part |= more;
                    }
                }
            }
        }
        Closure(rows)
    }

    pub fn within(&self, x: u16, y: u16) -> bool {
        self.0[x as usize][y as usize / 64] >> (y % 64) & 1 == 1
    }

    /// The 32,768 bytes that 01 gives these bits.
    pub fn index(&self) -> Vec<u8> {
        let mut bytes = Vec::new();
        for x in 0..512u16 {
            for byte in 0..64u16 {
                bytes.push((0..8).fold(0, |bits, bit| bits << 1 | u8::from(self.within(x, 8 * byte + bit))));
            }
        }
        bytes
    }
}

/// Every rule of "What the machine holds", and what follows: no cycle, every element in a class.
pub fn is_sound(policy: &Policy) -> bool {
    let limits = policy.elements.len() <= 511
        && policy.assignments.len() <= 2000
        && policy.associations.len() <= 1000
        && policy.prohibitions.len() <= 200
        && policy.processes.len() <= 255;
    let ids = policy.elements.iter().all(|(id, kind)| (1..=511).contains(id) && (1..=5).contains(kind))
        && policy.processes.keys().all(|id| *id != 0);
    let kind = |id: &u16| policy.elements.get(id).copied().unwrap_or(0);
    let pairings = [(1, 2), (2, 2), (2, 5), (3, 4), (3, 5), (4, 4), (4, 5)];
    let attribute = |id: &u16| (2..=4).contains(&kind(id));
    let list = |list: &Vec<u16>| {
        list.len() <= 4 && list.iter().all(attribute) && list.windows(2).all(|w| w[0] < w[1])
    };
    let relations = policy.assignments.iter().all(|(x, y)| x != y && pairings.contains(&(kind(x), kind(y))))
        && policy.associations.iter().all(|(a, t, rights)| kind(a) == 2 && attribute(t) && *rights != 0)
        && policy.processes.values().all(|user| kind(user) == 1)
        && policy.prohibitions.iter().all(|p| {
            let subject = match p.sort {
                1 => kind(&p.subject) == 1,
                2 => (1..=255).contains(&p.subject) && policy.processes.contains_key(&(p.subject as u8)),
                3 => kind(&p.subject) == 2,
                _ => false,
            };
            subject
                && p.form <= 1
                && p.rights != 0
                && list(&p.inclusions)
                && list(&p.exclusions)
                && p.inclusions.len() + p.exclusions.len() > 0
        });
    if !(limits && ids && relations) {
        return false;
    }
    let closure = Closure::of(policy);
    let all: Vec<u16> = policy.elements.keys().copied().collect();
    let acyclic =
        all.iter().all(|x| all.iter().all(|y| x == y || !(closure.within(*x, *y) && closure.within(*y, *x))));
    let in_a_class = all.iter().all(|x| all.iter().any(|c| kind(c) == 5 && closure.within(*x, *c)));
    let assigned = all.iter().all(|x| kind(x) == 5 || policy.assignments.iter().any(|(child, _)| child == x));
    acyclic && in_a_class && assigned
}

/// 01's operation table, as 01 writes it.
const OPERATIONS: [(&str, &str); 9] = [
    ("object", "{0}"),
    ("object", "{1}"),
    ("object", "{2}; {0}"),
    ("object", "{0,3}"),
    ("object, object attribute, object attribute", "{4},{5},{6}; {1},{5},{6}"),
    ("object, object attribute", "{0},{6}; {3},{1}"),
    ("non-class, non-class", "{7},{8}"),
    ("non-class, non-class", "{9},{10}"),
    ("user attribute, attribute", "{11},{12}"),
];

/// Kinds per argument, and the alternatives with a right set per argument.
pub struct Line {
    pub kinds: Vec<Vec<u8>>,
    pub alternatives: Vec<Vec<Vec<u32>>>,
}

pub fn table_line(operation: u32) -> Option<Line> {
    let (arguments, alternatives) = OPERATIONS.get(operation.checked_sub(1)? as usize)?;
    let kinds = arguments.split(", ").map(|word| match word {
        "object" => vec![3],
        "object attribute" => vec![4],
        "user attribute" => vec![2],
        "attribute" => vec![2, 3, 4],
        "non-class" => vec![1, 2, 3, 4],
        _ => unreachable!("no such word in the table"),
    });
    let set = |text: &str| text.split(',').map(|right| right.parse().unwrap()).collect();
    let alternatives = alternatives.split("; ").map(|alternative| {
        alternative.trim_start_matches('{').trim_end_matches('}').split("},{").map(set).collect()
    });
    Some(Line { kinds: kinds.collect(), alternatives: alternatives.collect() })
}

/// The refusal of a request, if it has one: every line is tried over all arguments.
pub fn request_refusal(policy: &Policy, process: u32, operation: u32, arguments: [u32; 3]) -> Option<u32> {
    let Some(line) = table_line(operation) else { return Some(2) };
    let used = line.kinds.len();
    let bad_id =
        arguments[..used].iter().any(|a| *a < 1 || *a > 511) || arguments[used..].iter().any(|a| *a != 0);
    if !(1..=255).contains(&process) || bad_id {
        return Some(2);
    }
    let kinds: Vec<Option<u8>> =
        arguments[..used].iter().map(|a| policy.elements.get(&(*a as u16)).copied()).collect();
    if !policy.processes.contains_key(&(process as u8)) || kinds.contains(&None) {
        return Some(4);
    }
    let fits = kinds.iter().zip(&line.kinds).all(|(kind, allowed)| allowed.contains(&kind.unwrap()));
    (!fits).then_some(5)
}

/// The rule over a policy and any containment.
pub struct Rule<'a> {
    pub policy: &'a Policy,
    pub within: &'a dyn Fn(u16, u16) -> bool,
}

impl Rule<'_> {
    pub fn classes(&self, e: u16) -> Vec<u16> {
        (1..=511).filter(|c| self.policy.elements.get(c) == Some(&5) && (self.within)(e, *c)).collect()
    }

    /// Every association that authorizes as class c asks.
    pub fn authorizing(&self, u: u16, r: u32, e: u16, c: u16) -> Vec<(u16, u16, u32)> {
        let within = self.within;
        let fits = |(a, t, rights): &&(u16, u16, u32)| {
            rights & (1 << r) != 0 && within(u, *a) && within(e, *t) && within(*t, c)
        };
        self.policy.associations.iter().filter(fits).copied().collect()
    }

    pub fn held(&self, u: u16, r: u32, e: u16) -> bool {
        let classes = self.classes(e);
        classes.iter().all(|c| !self.authorizing(u, r, e, *c).is_empty()) && !classes.is_empty()
    }

    pub fn restricts(&self, d: &Prohibition, p: u8, r: u32, e: u16) -> bool {
        let within = self.within;
        let user = self.policy.processes[&p];
        let inclusions: Vec<bool> = d.inclusions.iter().map(|y| within(e, *y)).collect();
        let exclusions: Vec<bool> = d.exclusions.iter().map(|y| within(e, *y)).collect();
        let range = match d.form {
            0 => inclusions.contains(&true) || exclusions.contains(&false),
            _ => !inclusions.contains(&false) && !exclusions.contains(&true),
        };
        let subject = (d.sort == 1 && d.subject == user)
            || (d.sort == 2 && d.subject == p as u16)
            || (d.sort == 3 && within(user, d.subject));
        d.rights & (1 << r) != 0 && range && subject && self.policy.elements[&e] != 5
    }

    fn satisfied(&self, p: u8, r: u32, e: u16) -> bool {
        self.held(self.policy.processes[&p], r, e)
            && !self.policy.prohibitions.iter().any(|d| self.restricts(d, p, r, e))
    }

    pub fn answer(&self, process: u32, operation: u32, arguments: [u32; 3]) -> Answer {
        if let Some(number) = request_refusal(self.policy, process, operation, arguments) {
            return Answer::Refused(number);
        }
        let alternatives = table_line(operation).unwrap().alternatives;
        let granted = alternatives.iter().position(|sets| {
            (0..sets.len())
                .all(|i| sets[i].iter().all(|r| self.satisfied(process as u8, *r, arguments[i] as u16)))
        });
        granted.map_or(Answer::Deny, |place| Answer::Grant(place as u32 + 1))
    }

    /// 01's row rule, from the answer of the rule.
    pub fn explanation(&self, process: u32, operation: u32, arguments: [u32; 3]) -> Explanation {
        let answer = self.answer(process, operation, arguments);
        let mut rows = Vec::new();
        if let Answer::Refused(_) = answer {
            return Explanation { answer, rows };
        }
        let p = process as u8;
        let u = self.policy.processes[&p];
        let alternatives = table_line(operation).unwrap().alternatives;
        if let Answer::Grant(alternative) = answer {
            for (i, set) in alternatives[alternative as usize - 1].iter().enumerate() {
                for right in set {
                    for class in self.classes(arguments[i] as u16) {
                        let all = self.authorizing(u, *right, arguments[i] as u16, class);
                        let lowest = all.iter().min_by_key(|(a, t, rights)| (*a, *t, *rights)).unwrap();
                        rows.push(Row {
                            alternative,
                            argument: i as u32 + 1,
                            right: *right,
                            cause: 0,
                            number: class.into(),
                            attribute: lowest.0.into(),
                            target: lowest.1.into(),
                            rights: lowest.2,
                        });
                    }
                }
            }
        } else {
            for (place, sets) in alternatives.iter().enumerate() {
                let all =
                    sets.iter().enumerate().flat_map(|(i, set)| set.iter().map(move |right| (i, *right)));
                let (i, right) =
                    all.into_iter().find(|(i, r)| !self.satisfied(p, *r, arguments[*i] as u16)).unwrap();
                let e = arguments[i] as u16;
                let (cause, number) = self.cause(p, u, right, e);
                rows.push(Row {
                    alternative: place as u32 + 1,
                    argument: i as u32 + 1,
                    right,
                    cause,
                    number,
                    ..Row::default()
                });
            }
        }
        Explanation { answer, rows }
    }

    fn cause(&self, p: u8, u: u16, r: u32, e: u16) -> (u32, u32) {
        if !self.held(u, r, e) {
            let lacking =
                self.classes(e).into_iter().filter(|c| self.authorizing(u, r, e, *c).is_empty()).min();
            return (1, lacking.unwrap_or(0).into());
        }
        let through = |sort: u8| {
            let all =
                self.policy.prohibitions.iter().filter(|d| d.sort == sort && self.restricts(d, p, r, e));
            all.map(|d| d.subject).min()
        };
        (1..=3)
            .find_map(|sort| through(sort).map(|subject| (u32::from(sort) + 1, subject.into())))
            .expect("held and unsatisfied, so restricted")
    }
}

/// Every refusal line, 2 to 10, that holds for a command on a sound policy and an index of the right
/// length. The lowest is 01's answer.
pub fn lines(policy: &Policy, command: &Command) -> BTreeSet<u32> {
    let mut holding = BTreeSet::new();
    let mut line = |number: u32, holds: bool| {
        if holds {
            holding.insert(number);
        }
    };
    let kind = |id: u32| u16::try_from(id).ok().and_then(|id| policy.elements.get(&id).copied());
    let process = |id: u32| u8::try_from(id).is_ok_and(|id| policy.processes.contains_key(&id));
    let no_element = |id: u32| id == 0 || id > 511;
    let no_process = |id: u32| id == 0 || id > 255;
    let wrong_kind = |id: u32, allowed: &[u8]| kind(id).is_some_and(|kind| !allowed.contains(&kind));
    let assigned = |child: u32, container: u32| {
        policy.assignments.iter().any(|(x, y)| u32::from(*x) == child && u32::from(*y) == container)
    };
    let associated = |attribute: u32, rights: u32, target: u32| {
        policy
            .associations
            .iter()
            .any(|(a, t, r)| u32::from(*a) == attribute && u32::from(*t) == target && *r == rights)
    };
    let containers = |kind: u32| -> &[u8] {
        match kind {
            1 => &[2],
            2 => &[2, 5],
            3 | 4 => &[4, 5],
            _ => &[],
        }
    };
    let adds = matches!(command, Command::CreateAssociation { .. } | Command::CreateProhibition(_));
    match *command {
        Command::CreateClass { id } => {
            line(2, no_element(id));
            line(3, kind(id).is_some());
        }
        Command::CreateElement { id, kind: new, container } => {
            line(2, no_element(id) || no_element(container) || new == 0 || new > 5);
            line(3, kind(id).is_some());
            line(4, kind(container).is_none());
            line(5, wrong_kind(container, containers(new)));
            line(10, policy.assignments.len() == 2000);
        }
        Command::Assign { child, container } => {
            let closure = Closure::of(policy);
            let both = kind(child).is_some() && kind(container).is_some();
            line(2, no_element(child) || no_element(container));
            line(3, assigned(child, container));
            line(4, !both);
            line(5, wrong_kind(container, containers(kind(child).unwrap_or(0).into())));
            line(7, child == container || both && closure.within(container as u16, child as u16));
            line(10, policy.assignments.len() == 2000);
        }
        Command::Deassign { child, container } => {
            line(2, no_element(child) || no_element(container));
            line(4, !assigned(child, container));
            line(8, policy.assignments.iter().filter(|(x, _)| u32::from(*x) == child).count() == 1);
        }
        Command::DeleteElement { id } => {
            let is = |other: &u16| u32::from(*other) == id;
            line(2, no_element(id));
            line(4, kind(id).is_none());
            line(9, policy.assignments.iter().any(|(_, y)| is(y)));
            line(9, policy.associations.iter().any(|(a, t, _)| is(a) || is(t)));
            line(9, policy.processes.values().any(is));
            line(9, policy.prohibitions.iter().any(|d| d.sort != 2 && is(&d.subject)));
            line(
                9,
                policy
                    .prohibitions
                    .iter()
                    .any(|d| d.inclusions.iter().any(is) || d.exclusions.iter().any(is)),
            );
        }
        Command::CreateAssociation { attribute, rights, target }
        | Command::DeleteAssociation { attribute, rights, target } => {
            let there = associated(attribute, rights, target);
            line(2, no_element(attribute) || no_element(target));
            line(if adds { 3 } else { 4 }, there == adds);
            line(4, kind(attribute).is_none() || kind(target).is_none());
            line(5, wrong_kind(attribute, &[2]) || wrong_kind(target, &[2, 3, 4]));
            line(6, rights == 0);
            line(10, adds && policy.associations.len() == 1000);
        }
        Command::CreateProhibition(ref given) | Command::DeleteProhibition(ref given) => {
            let there = policy.prohibitions.iter().any(|d| second::make::given(d) == *given);
            let lists = [&given.inclusions, &given.exclusions];
            let listed: Vec<u32> = lists.iter().flat_map(|list| list.iter().copied()).collect();
            let of_process = given.sort == 2;
            line(2, ![1, 2, 3].contains(&given.sort) || ![0, 1].contains(&given.form));
            line(2, if of_process { no_process(given.subject) } else { no_element(given.subject) });
            line(2, listed.iter().any(|id| no_element(*id)));
            line(if adds { 3 } else { 4 }, there == adds);
            line(4, if of_process { !process(given.subject) } else { kind(given.subject).is_none() });
            line(4, listed.iter().any(|id| kind(*id).is_none()));
            line(5, given.sort == 1 && wrong_kind(given.subject, &[1]));
            line(5, given.sort == 3 && wrong_kind(given.subject, &[2]));
            line(5, listed.iter().any(|id| wrong_kind(*id, &[2, 3, 4])));
            line(6, given.rights == 0 || listed.is_empty());
            line(
                6,
                lists.iter().any(|list| list.len() > 4 || list.windows(2).any(|pair| pair[0] >= pair[1])),
            );
            line(10, adds && policy.prohibitions.len() == 200);
        }
        Command::StartProcess { id, user } => {
            line(2, no_process(id) || no_element(user));
            line(3, process(id));
            line(4, kind(user).is_none());
            line(5, wrong_kind(user, &[1]));
        }
        Command::EndProcess { id } => {
            line(2, no_process(id));
            line(4, !process(id));
            line(9, policy.prohibitions.iter().any(|d| d.sort == 2 && u32::from(d.subject) == id));
        }
    }
    holding
}
