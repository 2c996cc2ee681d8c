//! The working memory as the pages publish it: which words hold a table, and which policy the table is
//! (docs/CONTRACTS.md, "Which memory holds a table"; docs/DESIGN.md, "The memory").
//!
//! Memory of the right shape denotes a policy, sound or not. A number above 511 where an id stands is no
//! element's; the policy has a stand-in for it, also above 511, and `Table` knows the number itself.

use crate::image::{Written, WrittenProhibition, FORM_1};
use crate::policy::{Policy, Prohibition};

/// A table has 8,192 words.
pub const WORDS: usize = 8_192;
/// What word 0 of a table holds.
const MARK: u32 = 1_363_431_985;
/// The kind of element x stands at 8 + x, the user of process i at 520 + i.
pub const KINDS: usize = 8;
pub const USERS: usize = 520;
/// An element's id, and a prohibition's subject, is below 512.
const IDS: u32 = 512;

/// Records of the same width, one after the other; how many there are stands in a word of its own.
pub struct Group {
    pub start: usize,
    pub width: usize,
    pub counter: usize,
    pub most: usize,
}

/// child * 512 + container.
pub const ASSIGNMENTS: Group = Group { start: 776, width: 1, counter: 1, most: 2_000 };
/// attribute * 512 + target; rights.
pub const ASSOCIATIONS: Group = Group { start: 2_776, width: 2, counter: 2, most: 1_000 };
/// sort * 1024 + subject * 2 + form; rights; inclusion count * 8 + exclusion count; eight ids.
pub const PROHIBITIONS: Group = Group { start: 5_776, width: 11, counter: 3, most: 200 };

impl Group {
    /// Are there at most as many records as there can be?
    fn fits(&self, words: &[u32]) -> bool {
        words[self.counter] as usize <= self.most
    }

    /// The records of words that hold a table.
    fn records<'a>(&self, words: &'a [u32]) -> impl Iterator<Item = &'a [u32]> {
        let length = self.width * words[self.counter] as usize;
        words[self.start..self.start + length].chunks_exact(self.width)
    }

    /// The words of a record that count: of a prohibition not those in the places that no id takes.
    fn counting<'a>(&self, record: &'a [u32]) -> &'a [u32] {
        match self.width {
            11 => &record[..3 + (record[2] / 8 + record[2] % 8) as usize],
            _ => record,
        }
    }

    /// Does the record stand in the group? The words hold a table.
    pub fn has(&self, words: &[u32], record: &[u32]) -> bool {
        self.records(words).any(|standing| self.counting(standing) == self.counting(record))
    }

    /// Fills the places of each prohibition that no id takes: they count for nothing. The words hold a table.
    pub fn fill_places(&self, words: &mut [u32], mut number: impl FnMut() -> u32) {
        for record in 0..words[self.counter] as usize {
            let record = &mut words[self.start + self.width * record..][..self.width];
            let counting = self.counting(record).len();
            record[counting..].fill_with(&mut number);
        }
    }

    /// Puts the record before the first that it is before, and counts it; false where there is no room.
    /// The words hold a table.
    pub fn put(&self, words: &mut [u32], record: &[u32]) -> bool {
        let count = words[self.counter] as usize;
        if count == self.most {
            return false;
        }
        let place = (0..count)
            .find(|i| record < &words[self.start + self.width * i..][..self.width])
            .unwrap_or(count);
        let (from, end) = (self.start + self.width * place, self.start + self.width * count);
        words.copy_within(from..end, from + self.width);
        words[from..from + self.width].copy_from_slice(record);
        words[self.counter] += 1;
        true
    }

    /// Writes the group anew: these records, each filled up with zeros, and zeros behind them.
    fn write(&self, words: &mut [u32], records: impl ExactSizeIterator<Item = Vec<u32>>) {
        words[self.counter] = records.len() as u32;
        let room = &mut words[self.start..self.start + self.width * self.most];
        room.fill(0);
        for (place, record) in room.chunks_exact_mut(self.width).zip(records) {
            place[..record.len()].copy_from_slice(&record);
        }
    }
}

/// The policy that words are.
pub struct Table {
    pub policy: Policy,
    /// What the policy's stand-ins from 512 on stand for.
    pub wide: Vec<u32>,
}

impl Table {
    /// The number itself where it is below 512, else its stand-in.
    fn id(&mut self, number: u32) -> u16 {
        if number < IDS {
            return number as u16;
        }
        self.wide.push(number);
        (IDS as usize + self.wide.len() - 1) as u16
    }

    /// What an id of the policy stands for.
    pub fn number(&self, id: u16) -> u32 {
        u32::from(id).checked_sub(IDS).map_or(u32::from(id), |place| self.wide[place as usize])
    }

    /// The prohibition of a record.
    fn prohibition(&mut self, record: &[u32]) -> Prohibition {
        let (head, inclusions, exclusions) = (record[0], record[2] / 8, record[2] % 8);
        let listed = &record[3..][..(inclusions + exclusions) as usize];
        let ids: Vec<u16> = listed.iter().map(|number| self.id(*number)).collect();
        let (inclusions, exclusions) = ids.split_at(inclusions as usize);
        Prohibition {
            // a sort that is none of the three concerns nobody
            sort: u8::try_from(head / 1024).unwrap_or(0),
            subject: (head / 2 % IDS) as u16,
            form: (head % 2) as u8,
            rights: record[1],
            inclusions: inclusions.to_vec(),
            exclusions: exclusions.to_vec(),
        }
    }
}

/// Makes the words the empty table; false where they are not 8,192.
pub fn clear(words: &mut [u32]) -> bool {
    if words.len() != WORDS {
        return false;
    }
    words.fill(0);
    words[0] = MARK;
    true
}

/// Do the words hold a table? The page's lines, one after the other.
pub fn holds_table(words: &[u32]) -> bool {
    words.len() == WORDS
        && words[0] == MARK
        && [ASSIGNMENTS, ASSOCIATIONS, PROHIBITIONS].iter().all(|group| group.fits(words))
        && ASSIGNMENTS.records(words).is_sorted_by(|one, next| one < next)
        && ASSIGNMENTS.records(words).all(|record| record[0] < IDS * IDS)
        && PROHIBITIONS.records(words).all(has_short_lists)
}

/// At most four ids in each list of a prohibition.
fn has_short_lists(record: &[u32]) -> bool {
    record[2] / 8 <= 4 && record[2] % 8 <= 4
}

/// The table that words hold.
pub fn table(words: &[u32]) -> Table {
    let mut table = Table { policy: Policy::new(), wide: Vec::new() };
    let pairs = ASSIGNMENTS.records(words).map(|record| ((record[0] / IDS) as u16, (record[0] % IDS) as u16));
    table.policy.assignments = pairs.collect();
    for record in ASSOCIATIONS.records(words) {
        let attribute = table.id(record[0] / IDS);
        table.policy.associations.insert((attribute, (record[0] % IDS) as u16, record[1]));
    }
    for record in PROHIBITIONS.records(words) {
        let prohibition = table.prohibition(record);
        table.policy.prohibitions.insert(prohibition);
    }
    for id in 1..IDS as u16 {
        let kind = words[KINDS + usize::from(id)];
        if (1..=5).contains(&kind) {
            table.policy.elements.insert(id, kind as u8);
        }
    }
    for id in 1..=255 {
        let user = words[USERS + usize::from(id)];
        if (1..IDS).contains(&user) {
            table.policy.processes.insert(id, user as u16);
        }
    }
    table
}

/// The fields of the image of the table that words hold: the numbers as they stand in the words, sound or not.
pub fn written(words: &[u32]) -> Written {
    let prohibition = |record: &[u32]| {
        let listed = |from: u32, count: u32| record[3 + from as usize..][..count as usize].to_vec();
        let (inclusions, exclusions) = (record[2] / 8, record[2] % 8);
        WrittenProhibition {
            sort: record[0] / 1024,
            subject: record[0] / 2 % IDS,
            form: record[0] % 2,
            rights: record[1],
            inclusions: listed(0, inclusions),
            exclusions: listed(inclusions, exclusions),
        }
    };
    let by_id = |start: usize, ids: u32, values: std::ops::Range<u32>| -> Vec<(u32, u32)> {
        let all = (1..ids).map(|id| (id, words[start + id as usize]));
        all.filter(|(_, value)| values.contains(value)).collect()
    };
    let mut fields = Written {
        form: FORM_1,
        counts: [0; 5],
        elements: by_id(KINDS, IDS, 1..6),
        assignments: ASSIGNMENTS.records(words).map(|record| (record[0] / IDS, record[0] % IDS)).collect(),
        associations: ASSOCIATIONS
            .records(words)
            .map(|record| (record[0] / IDS, record[0] % IDS, record[1]))
            .collect(),
        prohibitions: PROHIBITIONS.records(words).map(prohibition).collect(),
        processes: by_id(USERS, 256, 1..IDS),
    };
    fields.count();
    fields
}

/// Writes the table of a policy. Its groups stand in the image's order, with zeros behind the last record; words that no
/// group has are left.
pub fn write(policy: &Policy, words: &mut [u32]) {
    let word = |id: u16| u32::from(id);
    words[0] = MARK;
    for id in 1..IDS as u16 {
        words[KINDS + usize::from(id)] = policy.kind(id).map_or(0, u32::from);
    }
    for id in 1..=255 {
        words[USERS + usize::from(id)] = policy.processes.get(&id).map_or(0, |user| word(*user));
    }
    let assignments = policy.assignments.iter().map(|(x, y)| vec![word(*x) * IDS + word(*y)]);
    ASSIGNMENTS.write(words, assignments);
    let associations = policy.associations.iter();
    ASSOCIATIONS.write(words, associations.map(|(x, y, rights)| vec![word(*x) * IDS + word(*y), *rights]));
    PROHIBITIONS.write(words, policy.prohibitions.iter().map(prohibition_record));
}

/// sort * 1024 + subject * 2 + form; rights; inclusion count * 8 + exclusion count; the ids.
fn prohibition_record(given: &Prohibition) -> Vec<u32> {
    let counts = 8 * given.inclusions.len() + given.exclusions.len();
    let head = u32::from(given.sort) * 1024 + u32::from(given.subject) * 2 + u32::from(given.form);
    let ids = given.inclusions.iter().chain(&given.exclusions).map(|id| u32::from(*id));
    [head, given.rights, counts as u32].into_iter().chain(ids).collect()
}
