//! The explanation call (01, "Containment and the decision").

use crate::decide::{admit, Answer, Containment, Request, Rules, Searched};
use crate::policy::{Policy, SORT_ATTRIBUTE, SORT_PROCESS, SORT_USER};
use crate::refusal::NO_ROOM;

/// A row of an explanation.
///
/// Grant: one row for each argument, right and containing class of the granted alternative; `cause`
/// is 0, `number` the class, and the last three fields are the lowest authorizing association.
/// Deny: one row for each alternative, with its first failing argument and right, cause and number;
/// the last three fields are 0. Arguments are counted from 1.
#[derive(Clone, Copy, Debug, Default, PartialEq, Eq, PartialOrd, Ord)]
pub struct Row {
    pub alternative: u32,
    pub argument: u32,
    pub right: u32,
    pub cause: u32,
    pub number: u32,
    pub attribute: u32,
    pub target: u32,
    pub rights: u32,
}

/// An answer with its rows; a refused call has none.
#[derive(Clone, Debug, PartialEq, Eq)]
pub struct Explanation {
    pub answer: Answer,
    pub rows: Vec<Row>,
}

/// Cause 1: the right is not held.
pub const NOT_HELD: u32 = 1;
/// Causes 2, 3, 4: restricted through user, process or attribute. The sorts stand in this order.
const RESTRICTED_THROUGH: [(u32, u8); 3] = [(2, SORT_USER), (3, SORT_PROCESS), (4, SORT_ATTRIBUTE)];

/// The cause and number for which right `r` over `e` fails, or nothing if it is held and not restricted.
/// 01: "the causes are tried from 1 up".
fn failure(rules: &Rules, p: u8, u: u16, r: u32, e: u16) -> Option<(u32, u32)> {
    let classes = rules.classes_of(e);
    if classes.is_empty() {
        return Some((NOT_HELD, 0));
    }
    if let Some(lacking) = classes.iter().find(|c| rules.authorizing(u, r, e, **c).is_none()) {
        return Some((NOT_HELD, u32::from(*lacking)));
    }
    RESTRICTED_THROUGH.iter().find_map(|(cause, sort)| {
        let subjects = rules
            .restricting(p, u, r, e)
            .filter(|prohibition| prohibition.sort == *sort)
            .map(|prohibition| prohibition.subject);
        subjects.min().map(|lowest| (*cause, u32::from(lowest)))
    })
}

/// Every (position from 1, element, right) that an alternative asks for, rising.
fn asked<'a>(
    request: &'a Request,
    alternative: &'a [&'static [u32]],
) -> impl Iterator<Item = (u32, u16, u32)> + 'a {
    (1..)
        .zip(request.arguments.iter().zip(alternative))
        .flat_map(|(position, (e, rights))| rights.iter().map(move |r| (position, *e, *r)))
}

fn judge(rules: &Rules, request: &Request) -> Explanation {
    let Request { process, user, .. } = *request;
    let mut denials = Vec::new();
    for (number, alternative) in (1..).zip(request.operation.alternatives) {
        let first_failing = asked(request, alternative).find_map(|(argument, e, right)| {
            failure(rules, process, user, right, e).map(|(cause, number)| (argument, right, cause, number))
        });
        match first_failing {
            Some((argument, right, cause, found)) => denials.push(Row {
                alternative: number,
                argument,
                right,
                cause,
                number: found,
                ..Row::default()
            }),
            None => {
                return Explanation {
                    answer: Answer::Grant(number),
                    rows: grant_rows(rules, request, number, alternative),
                }
            }
        }
    }
    Explanation { answer: Answer::Deny, rows: denials }
}

/// 01: "Grant: one row for each argument, right and containing class, all rising, with the lowest
/// authorizing association by user attribute, target, then rights as a number."
fn grant_rows(rules: &Rules, request: &Request, number: u32, alternative: &[&'static [u32]]) -> Vec<Row> {
    let mut rows = Vec::new();
    for (argument, e, right) in asked(request, alternative) {
        for class in rules.classes_of(e) {
            let (attribute, target, rights) = rules
                .authorizing(request.user, right, e, class)
                .expect("a granted right has an association for each class");
            rows.push(Row {
                alternative: number,
                argument,
                right,
                cause: 0,
                number: u32::from(class),
                attribute: u32::from(attribute),
                target: u32::from(target),
                rights,
            });
        }
    }
    rows
}

/// The explanation over any containment; 01 asks only for the plain one.
pub fn explain_over(
    policy: &Policy,
    containment: &dyn Containment,
    process: u32,
    operation: u32,
    arguments: [u32; 3],
) -> Explanation {
    match admit(policy, process, operation, arguments) {
        Err(number) => Explanation { answer: Answer::Refused(number), rows: Vec::new() },
        Ok(request) => judge(&Rules { policy, containment }, &request),
    }
}

/// The explanation with as many rows as it needs. Refused with 2, 4, 5.
pub fn explain(policy: &Policy, process: u32, operation: u32, arguments: [u32; 3]) -> Explanation {
    explain_over(policy, &Searched::new(policy), process, operation, arguments)
}

/// The explanation into lent rows: the answer and the row count. "Rows beyond it keep their
/// contents." Refused with 2, 4, 5, and with 10 if the lent rows are too few; then nothing is written.
pub fn explain_into(
    policy: &Policy,
    process: u32,
    operation: u32,
    arguments: [u32; 3],
    lent: &mut [Row],
) -> (Answer, usize) {
    let Explanation { answer, rows } = explain(policy, process, operation, arguments);
    match lent.get_mut(..rows.len()) {
        None => (Answer::Refused(NO_ROOM), 0),
        Some(room) => {
            room.copy_from_slice(&rows);
            (answer, rows.len())
        }
    }
}
