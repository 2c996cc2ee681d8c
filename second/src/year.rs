//! A year of commands: a long run that creates, moves and deletes in a table that grows full. Every command follows
//! from the seed alone, so a script has room for it.
//!
//! Chance: the seed is the first number; each further one is the last one times 1,103,515,245 plus 12,345, cut to 32 bits. A
//! draw is the next number without its low 16 bits. A command takes three draws r, s, t. The letter at place r mod 64 of
//! [`LETTERS`] says what it is. x is s mod 514, and y is one of eight containers that x can have, the one of number
//! k = (s / 514) mod 8.
//!
//! Elements: 1 to 8 are classes, 9 to 136 user attributes, 137 to 264 users, 265 to 392 object attributes, the rest
//! objects. Container k of x: of a user, user attribute 9 + h, where h is (37 x + 53 k) mod 128; of anything else
//! class 1 + x mod 8 if k is 0, else 9 + h for an x up to 136 and 265 + h for an x above 264.
//!
//! | letter | command |
//! |---|---|
//! | `a` | assign x to y |
//! | `A` | assign x to t mod 514 |
//! | `d` | deassign x from y |
//! | `e` | create element x, of the kind above, in y |
//! | `E` | create element x, of kind t mod 8, in y |
//! | `f` | delete element x |
//! | `c` | create class x mod 12 |
//! | `s`, `t` | create, delete association: attribute 9 + t mod 64, target 265 + (t / 64) mod 16, rights (t / 1,024) mod 5 |
//! | `S` | create association: attribute x, target y, rights 1 + t mod 4 |
//! | `p`, `q` | create, delete prohibition: sort 1 + t mod 3; number (t / 3) mod 16 of the subjects, which begin at user 137, process 1 or user attribute 16; rights (t / 48) mod 4 |
//! | `P` | create prohibition: sort t mod 5, subject x, rights 1 |
//! | `u` | start process t mod 257 of user 137 + x mod 128 |
//! | `v` | end process t mod 257 |
//!
//! The form of a prohibition is (t / 192) mod 2; with l for (t / 384) mod 2 its inclusions are 265 + l and 300 + l, its
//! exclusion 16 + l.

use crate::command::{Command, GivenProhibition};

/// Which commands there are, and how often each.
pub const LETTERS: &[u8; 64] = b"aaaaaaaaaaaaaaaaaaaaAAdddddddddddeeeeeeeeeeEffcssssSttpppPqquuvv";

/// The commands that follow from a seed, without end.
pub struct Year(u32);

impl Year {
    pub fn new(seed: u32) -> Year {
        Year(seed)
    }

    fn draw(&mut self) -> u32 {
        self.0 = self.0.wrapping_mul(1_103_515_245).wrapping_add(12_345);
        self.0 >> 16
    }
}

fn kind(x: u32) -> u32 {
    match x {
        0..=8 => 5,
        9..=136 => 2,
        137..=264 => 1,
        265..=392 => 4,
        _ => 3,
    }
}

fn container(x: u32, k: u32) -> u32 {
    let h = (37 * x + 53 * k) % 128;
    match (x, k) {
        (137..=264, _) => 9 + h,
        (_, 0) => 1 + x % 8,
        (0..=136, _) => 9 + h,
        _ => 265 + h,
    }
}

fn prohibition(sort: u32, subject: u32, rights: u32, t: u32) -> GivenProhibition {
    let l = t / 384 % 2;
    GivenProhibition::new(sort, subject, t / 192 % 2, rights, &[265 + l, 300 + l], &[16 + l])
}

impl Iterator for Year {
    type Item = Command;

    fn next(&mut self) -> Option<Command> {
        let [r, s, t] = [self.draw(), self.draw(), self.draw()];
        let x = s % 514;
        let y = container(x, s / 514 % 8);
        let (attribute, target, rights) = (9 + t % 64, 265 + t / 64 % 16, t / 1_024 % 5);
        let named = || {
            let sort = 1 + t % 3;
            let first = [137, 1, 16][sort as usize - 1];
            prohibition(sort, first + t / 3 % 16, t / 48 % 4, t)
        };
        Some(match LETTERS[r as usize % 64] {
            b'a' => Command::Assign { child: x, container: y },
            b'A' => Command::Assign { child: x, container: t % 514 },
            b'd' => Command::Deassign { child: x, container: y },
            b'e' => Command::CreateElement { id: x, kind: kind(x), container: y },
            b'E' => Command::CreateElement { id: x, kind: t % 8, container: y },
            b'f' => Command::DeleteElement { id: x },
            b'c' => Command::CreateClass { id: x % 12 },
            b's' => Command::CreateAssociation { attribute, rights, target },
            b't' => Command::DeleteAssociation { attribute, rights, target },
            b'S' => Command::CreateAssociation { attribute: x, rights: 1 + t % 4, target: y },
            b'p' => Command::CreateProhibition(named()),
            b'q' => Command::DeleteProhibition(named()),
            b'P' => Command::CreateProhibition(prohibition(t % 5, x, 1, t)),
            b'u' => Command::StartProcess { id: t % 257, user: 137 + x % 128 },
            _ => Command::EndProcess { id: t % 257 },
        })
    }
}
