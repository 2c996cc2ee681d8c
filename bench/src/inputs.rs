//! What is asked of each table: requests, pairs of elements, images, commands. Everything follows from the table and a seed.

use crate::proved::{answer, Memory};
use quandrilof::{calls, Request};
use second::command::GivenProhibition;
use second::make::{self, given, Random};
use second::policy::{ATTRIBUTES, CLASS, OBJECT, OBJECT_ATTRIBUTE, USER, USER_ATTRIBUTE};
use second::{Answer, Command, Machine, Policy};
use std::collections::BTreeMap;

/// How many requests and pairs are drawn, and how many of an outcome are measured at most.
const DRAWN: usize = 4_000;
const MEASURED: usize = 100;

/// A request as the second program takes it, from the library's.
pub fn numbers(request: &Request) -> (u32, u32, [u32; 3]) {
    (request.process, request.operation, [request.first, request.second, request.third])
}

/// Requests that a case of a call is measured with, one after the other.
pub struct Asked {
    pub case: String,
    pub requests: Vec<Request>,
}

/// Requests of all operations, most of them not refused.
pub fn drawn(policy: &Policy, seed: u64) -> Vec<Request> {
    let mut random = Random::new(seed);
    let draw = |_| {
        let (process, operation, [first, second, third]) = make::request(&mut random, policy);
        Request { process, operation, first, second, third }
    };
    (0..DRAWN).map(draw).collect()
}

/// One object that is read and granted, one that is denied, one refused, and sets of granted and of denied requests.
pub fn requests(policy: &Policy, memory: &Memory) -> Vec<Asked> {
    let answered = |request: &Request| answer(calls::decide(&memory.words, request));
    let is_granted = |request: &Request| matches!(answered(request), Answer::Grant(_));
    let is_denied = |request: &Request| answered(request) == Answer::Deny;
    let mut reads = Vec::new();
    for process in policy.processes.keys().rev() {
        for object in policy.of_kind(OBJECT).collect::<Vec<_>>().into_iter().rev() {
            let (process, first) = (u32::from(*process), u32::from(object));
            reads.push(Request { process, operation: 1, first, second: 0, third: 0 });
            reads.push(Request { process, operation: 2, first, second: 0, third: 0 });
        }
    }
    let one = |case: &str, found: Option<&Request>| Asked {
        case: case.to_string(),
        requests: vec![*found.unwrap_or_else(|| panic!("no request for: {case}"))],
    };
    let any = drawn(policy, 1);
    let some = |case: &str, fits: &dyn Fn(&Request) -> bool| {
        let mut set: Vec<Request> = Vec::new();
        for request in any.iter().filter(|request| fits(request)) {
            if set.len() < MEASURED && !set.contains(request) {
                set.push(*request);
            }
        }
        Asked { case: format!("{} {case}", set.len()), requests: set }
    };
    let nobody = Request { process: 0, ..reads[0] };
    vec![
        one("one granted", reads.iter().find(|request| is_granted(request))),
        one("one denied", reads.iter().find(|request| is_denied(request))),
        some("granted", &is_granted),
        some("denied", &is_denied),
        one("refused", Some(&nobody)),
    ]
}

/// Pairs of elements where the one is within the other, and where it is not.
pub fn pairs(policy: &Policy, memory: &Memory) -> Vec<(String, Vec<(u32, u32)>)> {
    let mut random = Random::new(2);
    let ids: Vec<u16> = policy.elements.keys().copied().collect();
    let mut sets = [(true, Vec::new()), (false, Vec::new())];
    for _ in 0..100 * DRAWN {
        let mut draw = || u32::from(random.pick(&ids).expect("some elements"));
        let (x, y) = (draw(), draw());
        let told = calls::contains(&memory.words, x, y).expect("two elements");
        let (_, set) = sets.iter_mut().find(|(is, _)| *is == told).expect("one of two");
        if set.len() < MEASURED && !set.contains(&(x, y)) {
            set.push((x, y));
        }
        if sets.iter().all(|(_, set)| set.len() == MEASURED) {
            break;
        }
    }
    let case = |is: bool, count: usize| format!("{count} {}", if is { "within" } else { "outside" });
    sets.into_iter().map(|(is, set)| (case(is, set.len()), set)).collect()
}

/// Images: the table's, one without its last byte, and one in which a process is of no user.
pub fn images(policy: &Policy) -> Vec<(&'static str, Vec<u8>)> {
    let image = second::save(policy);
    let cut = image[..image.len() - 1].to_vec();
    let mut wrong = policy.clone();
    let class = policy.of_kind(CLASS).next().expect("a class");
    *wrong.processes.values_mut().last().expect("a process") = class;
    vec![("accepted", image), ("refused 12", cut), ("refused 14", second::save(&wrong))]
}

/// A command, and the policy that it is measured on.
pub struct Commanded {
    pub case: &'static str,
    pub before: Policy,
    pub command: Command,
}

/// The middle one.
fn middle<T: Copy>(list: impl IntoIterator<Item = T>) -> Option<T> {
    let list: Vec<T> = list.into_iter().collect();
    list.get(list.len() / 2).copied()
}

/// Each command, done and refused. What a command adds, the one against it takes away, from the middle of its group: adding is
/// measured on the table without it, taking away on the table with it.
pub fn commands(policy: &Policy) -> Vec<Commanded> {
    let mut list = Vec::new();
    for (add, remove) in additions(policy) {
        let mut with = Machine::holding(policy.clone());
        let mut without = with.clone();
        if without.run(&remove).is_err() {
            with.run(&add).unwrap_or_else(|number| panic!("{add:?} is refused with {number}"));
        }
        let done = |before: Policy, command: Command| Commanded { case: "done", before, command };
        list.push(done(without.policy, add));
        list.push(done(with.policy, remove));
    }
    // a class is deleted as any element is
    list.remove(1);
    let refused = refusals(policy).into_iter().map(|(case, command)| Commanded {
        case,
        before: policy.clone(),
        command,
    });
    list.extend(refused);
    list.sort_by_key(|commanded| commanded.command.number());
    list
}

/// A prohibition: the middle one, or one that the policy could have.
fn prohibition(policy: &Policy) -> GivenProhibition {
    let made = || make::prohibition(&mut Random::new(3), policy);
    let standing = policy.prohibitions.iter().nth(policy.prohibitions.len() / 2).cloned();
    given(&standing.or_else(made).expect("something to prohibit"))
}

/// Adding something and taking it away: a class, an element, an assignment, an association, a prohibition, a process.
fn additions(policy: &Policy) -> Vec<(Command, Command)> {
    let is_used = |id: u16| {
        policy.assignments.iter().any(|(_, container)| *container == id)
            || policy.associations.iter().any(|(attribute, target, _)| [*attribute, *target].contains(&id))
            || policy.prohibitions.iter().any(|prohibition| prohibition.names_element(id))
            || policy.processes.values().any(|user| *user == id)
    };
    let free = (1..=511).rev().find(|id| policy.kind(*id).is_none());
    let number = u32::from;
    // an object that nothing names; where no id is free, the class gets its id, once it is deleted
    let leaf = middle(policy.of_kind(OBJECT).filter(|id| !is_used(*id)));
    let in_place = leaf.map(|id| (id, policy.containers(id).next().expect("a container")));
    let container = middle(policy.of_kind(OBJECT_ATTRIBUTE)).expect("an object attribute");
    let (element, container) = match (in_place, free) {
        (Some(leaf), _) => leaf,
        (None, Some(id)) => (id, container),
        (None, None) => panic!("no element to delete and no id to create one with"),
    };
    let class = free.filter(|id| *id != element).unwrap_or(element);
    let second_assignments = policy.assignments.iter().copied().filter(|(child, container)| {
        policy.containers(*child).count() > 1 && policy.containers(*child).last() == Some(*container)
    });
    let (child, holder) = middle(second_assignments).unwrap_or_else(|| {
        let child = middle(policy.of_kind(OBJECT_ATTRIBUTE)).expect("an object attribute");
        (child, policy.of_kind(CLASS).last().expect("a class"))
    });
    let (attribute, target, rights) = middle(policy.associations.iter().copied()).expect("an association");
    let prohibition = prohibition(policy);
    let process = middle(
        policy
            .processes
            .keys()
            .copied()
            .filter(|id| !policy.prohibitions.iter().any(|prohibition| prohibition.names_process(*id))),
    )
    .expect("a process that no prohibition names");
    let (attribute, target, user) = (number(attribute), number(target), policy.processes[&process]);
    vec![
        (Command::CreateClass { id: number(class) }, Command::DeleteElement { id: number(class) }),
        (
            Command::CreateElement { id: number(element), kind: OBJECT.into(), container: number(container) },
            Command::DeleteElement { id: number(element) },
        ),
        (
            Command::Assign { child: number(child), container: number(holder) },
            Command::Deassign { child: number(child), container: number(holder) },
        ),
        (
            Command::CreateAssociation { attribute, rights, target },
            Command::DeleteAssociation { attribute, rights, target },
        ),
        (Command::CreateProhibition(prohibition.clone()), Command::DeleteProhibition(prohibition)),
        (
            Command::StartProcess { id: process.into(), user: number(user) },
            Command::EndProcess { id: process.into() },
        ),
    ]
}

/// The object attributes at the head and at the foot of a chain that is as long as any.
fn ends(policy: &Policy) -> (u16, u16) {
    let above: BTreeMap<u16, usize> =
        policy.of_kind(OBJECT_ATTRIBUTE).map(|id| (id, policy.reach(id).len())).collect();
    let foot = *above.iter().max_by_key(|(_, count)| **count).expect("an object attribute").0;
    let reached = policy.reach(foot);
    let heads = above.iter().filter(|(id, _)| reached.contains(id));
    (*heads.min_by_key(|(_, count)| **count).expect("the foot itself").0, foot)
}

/// Commands that are refused, each by a line of its own, after the table was looked at.
fn refusals(policy: &Policy) -> Vec<(&'static str, Command)> {
    let number = u32::from;
    let of_kind = |kind: u8| number(middle(policy.of_kind(kind)).expect("one of each kind"));
    let (class, user, attribute) = (of_kind(CLASS), of_kind(USER), of_kind(USER_ATTRIBUTE));
    let (object, holder) = (of_kind(OBJECT), of_kind(OBJECT_ATTRIBUTE));
    let (head, foot) = ends(policy);
    let only = middle(
        policy.assignments.iter().copied().filter(|(child, _)| policy.containers(*child).count() == 1),
    );
    let (child, container) = only.expect("an element with one assignment");
    let (by, over, rights) = middle(policy.associations.iter().copied()).expect("an association");
    let prohibition = prohibition(policy);
    let (mut empty, mut absent) = (prohibition.clone(), prohibition);
    (empty.rights, absent.rights) = (0, 0x5555_5555);
    let process = number(u16::from(*policy.processes.keys().last().expect("a process")));
    let no_process = (1..=255).find(|id| !policy.processes.contains_key(id));
    let named = policy.processes.keys().find(|id| policy.prohibitions.iter().any(|p| p.names_process(**id)));
    let end_process = match (named, no_process) {
        (Some(id), _) => ("refused 9", Command::EndProcess { id: (*id).into() }),
        (None, Some(id)) => ("refused 4", Command::EndProcess { id: id.into() }),
        (None, None) => ("refused 2", Command::EndProcess { id: 0 }),
    };
    let used = middle(policy.elements.keys().copied().filter(|id| {
        policy.is_one_of(*id, &ATTRIBUTES) && policy.assignments.iter().any(|(_, container)| container == id)
    }))
    .expect("an attribute with something in it");
    vec![
        ("refused 3", Command::CreateClass { id: class }),
        ("refused 3", Command::CreateElement { id: object, kind: OBJECT.into(), container: holder }),
        ("refused 7", Command::Assign { child: number(head), container: number(foot) }),
        ("refused 8", Command::Deassign { child: number(child), container: number(container) }),
        ("refused 9", Command::DeleteElement { id: number(used) }),
        ("refused 3", Command::CreateAssociation { attribute: number(by), rights, target: number(over) }),
        ("refused 4", Command::DeleteAssociation { attribute, rights: 0x5555_5555, target: holder }),
        ("refused 6", Command::CreateProhibition(empty)),
        ("refused 4", Command::DeleteProhibition(absent)),
        ("refused 3", Command::StartProcess { id: process, user }),
        end_process,
    ]
}
