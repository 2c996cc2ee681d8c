//! The proved library and the decision in C, asked in the words of the second program.

use quandrilof::calls::{self, *};
use quandrilof::{Decision, Refusal, Request, Row, TABLE_WORDS};
use second::command::GivenProhibition;
use second::{Answer, Command, Policy};

extern "C" {
    fn c_decide_indexed(
        table: *const u32,
        words: usize,
        index: *const u8,
        bytes: usize,
        process: u32,
        operation: u32,
        a: u32,
        b: u32,
        c: u32,
    ) -> u32;
}

/// A table and its index.
#[derive(Clone, PartialEq, Eq)]
pub struct Memory {
    pub words: Vec<u32>,
    pub index: Vec<u8>,
}

impl Memory {
    /// The words of a policy and its index, as the second program says that they are.
    pub fn of(policy: &Policy) -> Memory {
        let mut words = vec![0; TABLE_WORDS];
        second::words::write(policy, &mut words);
        Memory { words, index: second::build_index(policy) }
    }

    /// Runs a command.
    pub fn run(&mut self, command: &Command) -> Result<(), u32> {
        let Memory { words, index } = self;
        match command {
            Command::CreateClass { id } => create_class(words, index, *id),
            Command::CreateElement { id, kind, container } => {
                create_element(words, index, *id, *kind, *container)
            }
            Command::Assign { child, container } => assign(words, index, *child, *container),
            Command::Deassign { child, container } => deassign(words, index, *child, *container),
            Command::DeleteElement { id } => delete_element(words, index, *id),
            Command::CreateAssociation { attribute, rights, target } => {
                create_association(words, index, *attribute, *rights, *target)
            }
            Command::DeleteAssociation { attribute, rights, target } => {
                delete_association(words, index, *attribute, *rights, *target)
            }
            Command::CreateProhibition(given) => create_prohibition(words, index, &fields(given)),
            Command::DeleteProhibition(given) => delete_prohibition(words, index, &fields(given)),
            Command::StartProcess { id, user } => start_process(words, index, *id, *user),
            Command::EndProcess { id } => end_process(words, index, *id),
        }
        .map_err(Refusal::number)
    }
}

fn fields(given: &GivenProhibition) -> quandrilof::Prohibition<'_> {
    let GivenProhibition { sort, subject, form, rights, inclusions, exclusions } = given;
    quandrilof::Prohibition {
        sort: *sort,
        subject: *subject,
        form: *form,
        rights: *rights,
        inclusions,
        exclusions,
    }
}

/// The second program's answer of the library's.
pub fn answer(told: Result<Decision, Refusal>) -> Answer {
    match told {
        Ok(Decision::Deny) => Answer::Deny,
        Ok(Decision::Grant(alternative)) => Answer::Grant(alternative),
        Err(refusal) => Answer::Refused(refusal.number()),
    }
}

/// The explanation: its answer and its rows.
pub fn explained(words: &[u32], request: &Request, rows: &mut [Row]) -> (Answer, usize) {
    match calls::explain(words, request, rows) {
        Ok(told) => (answer(Ok(told.decision)), told.rows),
        Err(refusal) => (answer(Err(refusal)), 0),
    }
}

/// The indexed decision in C. Its numbers are those of the library's C face.
pub fn decide_in_c(words: &[u32], index: &[u8], request: &Request) -> u32 {
    let Request { process, operation, first, second, third } = *request;
    unsafe {
        c_decide_indexed(
            words.as_ptr(),
            words.len(),
            index.as_ptr(),
            index.len(),
            process,
            operation,
            first,
            second,
            third,
        )
    }
}

/// The same, as an answer.
pub fn answer_in_c(words: &[u32], index: &[u8], request: &Request) -> Answer {
    match decide_in_c(words, index, request) {
        0 => Answer::Deny,
        number @ 1..=15 => Answer::Grant(number),
        number => Answer::Refused(number - 16),
    }
}
