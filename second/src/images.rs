//! The scripts of the program `try_image`: images loaded into the memory and saved from it, what that answers and leaves.
//!
//! A step is thirteen bytes: a letter and three numbers `a`, `b`, `c` of four bytes, the high byte first. From step to step
//! a script keeps the memory's words, the image, the room that is saved into, and how many words and bytes of room are lent.
//!
//! | step | does |
//! |---|---|
//! | `B` | the image is the a bytes that follow the step, of at most 18,432 |
//! | `N` | the image is cut to a bytes, or longer by zero bytes |
//! | `L` | lends the first a words of memory, of 8,193, and the first b bytes of the room, of 16,384, from now on |
//! | `W` | puts b at word a |
//! | `Z` | makes each byte of the room a |
//! | `.` | ends the line |
//! | `=` | says the state |
//! | `l` | loads the image and says the answer |
//! | `s` | saves and says the answer and the length |
//! | `z` | makes the words the empty table |
//! | `K` | tries each cut of the image, from no byte to all |
//! | `T` | tries the image with each bit in turn turned over |
//! | `Y` | tries b damaged images of the seed a |
//!
//! An answer is a letter: `a` for "accepted", or as many letters behind it as the refusal number says. A length is 0 where saving is
//! refused.
//!
//! A try loads, says the answer, and saves. `K`, `T` and `Y` then end the line and say, on a line of its own, the sum of what their
//! tries answered and left: the refusal number of the load or 0, the words' sum, the length that was saved or 65,536 times the
//! refusal number, the room's sum.
//!
//! Damage: x begins as the seed, and becomes mix(x, i) before image i, counted from 0. r is mix(x, 0) / 65,536. Where r is
//! a multiple of 4 the image is cut to r / 4 % (length + 1) bytes. Else r % 4 bits are turned over: bit j is
//! y / 32,768 % (8 * length), where y begins as x and becomes mix(y, 1) before each bit. An image without bytes has
//! no bits to turn over, and is not tried then.
//!
//! The state is two lines: `H`, the words 0 to 7 and the sum of the lent words; `R` and the sum of the lent bytes of the room. A sum
//! begins at 0; with each number it becomes mix(sum, number) = sum * 1,103,515,245 + number + 12,345, cut to 32 bits.

use crate::image::LONGEST_IMAGE;
use crate::lent;
use crate::words::WORDS;

/// As many words and bytes there are to lend from, and as long an image can be.
const ALL_WORDS: usize = WORDS + 1;
const ROOM: usize = 16_384;
const IMAGE: usize = 18_432;
const _: () = assert!(LONGEST_IMAGE <= ROOM);

/// How often load ended how: by 0 for "accepted" or the refusal number.
pub type Tally = [u32; 15];

fn mix(sum: u32, number: u32) -> u32 {
    sum.wrapping_mul(1_103_515_245).wrapping_add(number).wrapping_add(12_345)
}

fn sum(numbers: impl Iterator<Item = u32>) -> u32 {
    numbers.fold(0, mix)
}

fn letter(number: u32) -> char {
    (b'a' + number as u8) as char
}

struct State {
    words: Vec<u32>,
    image: Vec<u8>,
    room: Vec<u8>,
    /// How many words and bytes of room are lent.
    lent: (usize, usize),
    tally: Tally,
    printed: String,
}

impl State {
    fn words(&mut self) -> &mut [u32] {
        &mut self.words[..self.lent.0]
    }

    fn room(&mut self) -> &mut [u8] {
        &mut self.room[..self.lent.1]
    }

    /// Loads these bytes: 0, or the refusal number.
    fn load(&mut self, image: &[u8]) -> u32 {
        let number = lent::load(self.words(), image).err().unwrap_or(0);
        self.tally[number as usize] += 1;
        number
    }

    /// Saves: 0 and the length, or the refusal number and 0.
    fn save(&mut self) -> (u32, u32) {
        let State { words, room, lent: (words_lent, bytes_lent), .. } = self;
        match lent::save(&words[..*words_lent], &mut room[..*bytes_lent]) {
            Ok(length) => (0, length as u32),
            Err(number) => (number, 0),
        }
    }

    /// Loads and saves, says the answer, and adds all to the sum.
    fn attempt(&mut self, image: &[u8], before: u32) -> u32 {
        let number = self.load(image);
        self.printed.push(letter(number));
        let words = sum(self.words().iter().copied());
        let (refused, length) = self.save();
        let room = sum(self.room().iter().map(|byte| u32::from(*byte)));
        [number, words, 65_536 * refused + length, room].into_iter().fold(before, mix)
    }

    fn ends(&mut self, sum: u32) {
        self.printed.push_str(&format!("\n{sum}\n"));
    }

    fn cuts(&mut self) {
        let image = self.image.clone();
        let sum = (0..=image.len()).fold(0, |sum, length| self.attempt(&image[..length], sum));
        self.ends(sum);
    }

    fn flips(&mut self) {
        let mut image = self.image.clone();
        let mut sum = 0;
        for bit in 0..8 * image.len() {
            image[bit / 8] ^= 128 >> (bit % 8);
            sum = self.attempt(&image, sum);
            image[bit / 8] ^= 128 >> (bit % 8);
        }
        self.ends(sum);
    }

    fn damages(&mut self, seed: u32, count: u32) {
        let (mut x, mut sum) = (seed, 0);
        for i in 0..count {
            x = mix(x, i);
            let r = mix(x, 0) / 65_536;
            let mut image = self.image.clone();
            if r.is_multiple_of(4) {
                image.truncate(r as usize / 4 % (image.len() + 1));
            } else if image.is_empty() {
                continue;
            } else {
                let mut y = x;
                for _ in 0..r % 4 {
                    y = mix(y, 1);
                    let bit = (y / 32_768) as usize % (8 * image.len());
                    image[bit / 8] ^= 128 >> (bit % 8);
                }
            }
            sum = self.attempt(&image, sum);
        }
        self.ends(sum);
    }

    fn step(&mut self, letter_is: u8, a: u32, b: u32, more: &[u8]) {
        match letter_is {
            b'B' => self.image = more.to_vec(),
            b'N' => self.image.resize((a as usize).min(IMAGE), 0),
            b'L' => self.lent = ((a as usize).min(ALL_WORDS), (b as usize).min(ROOM)),
            b'W' => {
                if let Some(word) = self.words().get_mut(a as usize) {
                    *word = b;
                }
            }
            b'Z' => self.room().fill(a as u8),
            b'.' => self.printed.push('\n'),
            b'=' => {
                let head: Vec<String> =
                    (0..8).map(|i| self.words().get(i).copied().unwrap_or(0).to_string()).collect();
                let words = sum(self.words().iter().copied());
                let room = sum(self.room().iter().map(|byte| u32::from(*byte)));
                self.printed.push_str(&format!("H {} {words}\nR {room}\n", head.join(" ")));
            }
            b'l' => {
                let image = self.image.clone();
                let number = self.load(&image);
                self.printed.push(letter(number));
            }
            b's' => {
                let (number, length) = self.save();
                self.printed.push_str(&format!("{}{length} ", letter(number)));
            }
            b'z' => {
                let number = lent::new(self.words()).err().unwrap_or(0);
                self.printed.push(letter(number));
            }
            b'K' => self.cuts(),
            b'T' => self.flips(),
            b'Y' => self.damages(a, b),
            _ => panic!("no step {}", letter_is as char),
        }
    }
}

fn run(script: &[u8]) -> State {
    let mut state = State {
        words: vec![0; ALL_WORDS],
        image: Vec::new(),
        room: vec![0; ROOM],
        lent: (WORDS, ROOM),
        tally: Tally::default(),
        printed: String::new(),
    };
    let mut left = script;
    while let Some((step, more)) = left.split_at_checked(13) {
        let number = |at: usize| u32::from_be_bytes(step[at..at + 4].try_into().expect("four bytes"));
        let follow = if step[0] == b'B' { number(1) as usize } else { 0 };
        assert!(follow <= IMAGE, "an image of {follow} bytes");
        state.step(step[0], number(1), number(5), &more[..follow]);
        left = &more[follow..];
    }
    state
}

/// What the program prints.
pub fn images(script: &[u8]) -> String {
    run(script).printed
}

/// How often load ended how.
pub fn tally(script: &[u8]) -> Tally {
    run(script).tally
}
