//! The decision (01, "Containment and the decision").

use crate::index::{bit, has_another_length};
use crate::policy::{
    is_element_id, is_process_id, Association, Policy, Prohibition, ATTRIBUTES, CLASS, CONJUNCTIVE,
    NON_CLASS, OBJECT, OBJECT_ATTRIBUTE, SORT_ATTRIBUTE, SORT_PROCESS, SORT_USER, USER_ATTRIBUTE,
};
use crate::refusal::{line, ABSENT, KIND, OUT_OF_RANGE};
use std::cell::RefCell;
use std::collections::{BTreeMap, BTreeSet};

/// The answer to a request.
#[derive(Clone, Copy, Debug, PartialEq, Eq)]
pub enum Answer {
    /// Granted, with the lowest alternative that is satisfied.
    Grant(u32),
    Deny,
    /// Refused, with 01's number.
    Refused(u32),
}

/// One line of 01's operation table.
#[derive(Debug)]
pub struct Operation {
    pub number: u32,
    pub name: &'static str,
    /// The kinds allowed at each argument.
    pub kinds: &'static [&'static [u8]],
    /// The alternatives; each has a right set per argument, its rights rising.
    pub alternatives: &'static [&'static [&'static [u32]]],
}

/// 01's operation table.
pub const OPERATIONS: [Operation; 9] = [
    Operation { number: 1, name: "read", kinds: &[&[OBJECT]], alternatives: &[&[&[0]]] },
    Operation { number: 2, name: "write", kinds: &[&[OBJECT]], alternatives: &[&[&[1]]] },
    Operation { number: 3, name: "find", kinds: &[&[OBJECT]], alternatives: &[&[&[2]], &[&[0]]] },
    Operation { number: 4, name: "print", kinds: &[&[OBJECT]], alternatives: &[&[&[0, 3]]] },
    Operation {
        number: 5,
        name: "move",
        kinds: &[&[OBJECT], &[OBJECT_ATTRIBUTE], &[OBJECT_ATTRIBUTE]],
        alternatives: &[&[&[4], &[5], &[6]], &[&[1], &[5], &[6]]],
    },
    Operation {
        number: 6,
        name: "copy",
        kinds: &[&[OBJECT], &[OBJECT_ATTRIBUTE]],
        alternatives: &[&[&[0], &[6]], &[&[3], &[1]]],
    },
    Operation { number: 7, name: "assign", kinds: &[&NON_CLASS, &NON_CLASS], alternatives: &[&[&[7], &[8]]] },
    Operation {
        number: 8,
        name: "deassign",
        kinds: &[&NON_CLASS, &NON_CLASS],
        alternatives: &[&[&[9], &[10]]],
    },
    Operation {
        number: 9,
        name: "associate",
        kinds: &[&[USER_ATTRIBUTE], &ATTRIBUTES],
        alternatives: &[&[&[11], &[12]]],
    },
];

/// Where a decision takes containment from.
pub trait Containment {
    /// Is x within y?
    fn within(&self, x: u16, y: u16) -> bool;
}

/// Containment by search over the assignments. What was searched is kept until the call ends.
pub struct Searched<'a> {
    policy: &'a Policy,
    reached: RefCell<BTreeMap<u16, BTreeSet<u16>>>,
}

impl<'a> Searched<'a> {
    pub fn new(policy: &'a Policy) -> Self {
        Searched { policy, reached: RefCell::default() }
    }
}

impl Containment for Searched<'_> {
    fn within(&self, x: u16, y: u16) -> bool {
        self.reached.borrow_mut().entry(x).or_insert_with(|| self.policy.reach(x)).contains(&y)
    }
}

/// Containment from the bits of an index alone. That x is within x too is read from its bit.
pub struct Bits<'a>(pub &'a [u8]);

impl Containment for Bits<'_> {
    fn within(&self, x: u16, y: u16) -> bool {
        bit(self.0, x, y)
    }
}

/// A request that no line of the refusal table holds for.
pub struct Request {
    pub process: u8,
    pub user: u16,
    pub operation: &'static Operation,
    pub arguments: Vec<u16>,
}

/// Judges a request by the lines 2, 4 and 5, each over all of its arguments.
/// 01: "In a request, 5 looks only at the kinds in the operation table."
pub fn admit(policy: &Policy, process: u32, operation: u32, arguments: [u32; 3]) -> Result<Request, u32> {
    let operation = OPERATIONS.iter().find(|listed| listed.number == operation).ok_or(OUT_OF_RANGE)?;
    let (used, unused) = arguments.split_at(operation.kinds.len());
    line(
        OUT_OF_RANGE,
        !is_process_id(process)
            || used.iter().any(|id| !is_element_id(*id))
            || unused.iter().any(|id| *id != 0),
    )?;
    let process = process as u8;
    let arguments: Vec<u16> = used.iter().map(|id| *id as u16).collect();
    line(ABSENT, arguments.iter().any(|id| policy.kind(*id).is_none()))?;
    let user = *policy.processes.get(&process).ok_or(ABSENT)?;
    let fits = |(id, kinds): (&u16, &&[u8])| policy.is_one_of(*id, kinds);
    line(KIND, !arguments.iter().zip(operation.kinds).all(fits))?;
    Ok(Request { process, user, operation, arguments })
}

/// The rules of holding and restricting, over a policy and a containment.
pub struct Rules<'a> {
    pub policy: &'a Policy,
    pub containment: &'a dyn Containment,
}

impl Rules<'_> {
    fn within(&self, x: u16, y: u16) -> bool {
        self.containment.within(x, y)
    }

    /// 01: "The *classes of* e are the classes that e is within." Rising.
    pub fn classes_of(&self, e: u16) -> Vec<u16> {
        self.policy.of_kind(CLASS).filter(|class| self.within(e, *class)).collect()
    }

    /// The lowest association through which user `u` has right `r` over `e` as class `c` asks:
    /// "u within its user attribute, r in its set, e within its target, and its target within c".
    pub fn authorizing(&self, u: u16, r: u32, e: u16, c: u16) -> Option<Association> {
        self.policy
            .associations
            .iter()
            .find(|(attribute, target, rights)| {
                has_right(*rights, r)
                    && self.within(u, *attribute)
                    && self.within(e, *target)
                    && self.within(*target, c)
            })
            .copied()
    }

    /// 01: "User u holds right r over e if e has at least one class, and for each class c of e some
    /// association ..."
    pub fn holds(&self, u: u16, r: u32, e: u16) -> bool {
        let classes = self.classes_of(e);
        !classes.is_empty() && classes.iter().all(|c| self.authorizing(u, r, e, *c).is_some())
    }

    /// Is `e` in the prohibition's range? Disjunctive: "non-class elements within some listed
    /// inclusion, or outside some listed exclusion". Conjunctive: "non-class elements within every
    /// inclusion and outside every exclusion; an empty list limits nothing".
    pub fn in_range(&self, prohibition: &Prohibition, e: u16) -> bool {
        let within = |listed: &u16| self.within(e, *listed);
        let outside = |listed: &u16| !self.within(e, *listed);
        let listed_so = if prohibition.form == CONJUNCTIVE {
            prohibition.inclusions.iter().all(within) && prohibition.exclusions.iter().all(outside)
        } else {
            prohibition.inclusions.iter().any(within) || prohibition.exclusions.iter().any(outside)
        };
        self.policy.is_one_of(e, &NON_CLASS) && listed_so
    }

    /// Is the prohibition's subject "p, or p's user, or an attribute that p's user is within"?
    pub fn concerns(&self, prohibition: &Prohibition, p: u8, u: u16) -> bool {
        match prohibition.sort {
            SORT_USER => prohibition.subject == u,
            SORT_PROCESS => prohibition.subject == u16::from(p),
            SORT_ATTRIBUTE => self.within(u, prohibition.subject),
            _ => false,
        }
    }

    /// The prohibitions that restrict (process p, right r, element e); u is p's user.
    pub fn restricting<'b>(
        &'b self,
        p: u8,
        u: u16,
        r: u32,
        e: u16,
    ) -> impl Iterator<Item = &'b Prohibition> + 'b {
        self.policy.prohibitions.iter().filter(move |prohibition| {
            has_right(prohibition.rights, r)
                && self.concerns(prohibition, p, u)
                && self.in_range(prohibition, e)
        })
    }

    /// 01: "A request is granted if one alternative has, for each argument and each right in that
    /// argument's set, the right held and not restricted. ... The answer names the lowest such
    /// alternative."
    pub fn judge(&self, request: &Request) -> Answer {
        let Request { process, user, operation, arguments } = request;
        for (number, alternative) in (1..).zip(operation.alternatives) {
            let satisfied = arguments.iter().zip(*alternative).all(|(e, rights)| {
                rights.iter().all(|r| {
                    self.holds(*user, *r, *e) && self.restricting(*process, *user, *r, *e).next().is_none()
                })
            });
            if satisfied {
                return Answer::Grant(number);
            }
        }
        Answer::Deny
    }
}

/// Is the right in the set?
pub fn has_right(rights: u32, right: u32) -> bool {
    rights >> right & 1 == 1
}

/// The plain decision: containment by search. Refused with 2, 4, 5.
pub fn decide(policy: &Policy, process: u32, operation: u32, arguments: [u32; 3]) -> Answer {
    match admit(policy, process, operation, arguments) {
        Err(number) => Answer::Refused(number),
        Ok(request) => {
            let containment = Searched::new(policy);
            Rules { policy, containment: &containment }.judge(&request)
        }
    }
}

/// The indexed decision: 01, "takes containment from these bits alone; over other bytes it answers as
/// the rule does with those bits read as containment". Existence, kinds and processes come from the
/// policy. Refused with 2 (also for the index), 4, 5.
pub fn decide_indexed(
    policy: &Policy,
    index: &[u8],
    process: u32,
    operation: u32,
    arguments: [u32; 3],
) -> Answer {
    if has_another_length(index) {
        return Answer::Refused(OUT_OF_RANGE);
    }
    match admit(policy, process, operation, arguments) {
        Err(number) => Answer::Refused(number),
        Ok(request) => Rules { policy, containment: &Bits(index) }.judge(&request),
    }
}
