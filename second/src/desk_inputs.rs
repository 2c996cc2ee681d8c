//! Inputs of the desk program: the stored examples, the input that is stored for the program `desk_main`, and many short ones whose first line
//! differs.

use crate::desk::desk;
use crate::house::{furnished, small_house};
use crate::image::save;
use crate::make::{self, Random, Size};
use crate::policy::Policy;

/// Length and image.
pub fn with_length(image: &[u8]) -> Vec<u8> {
    let length = image.len() as u16;
    [&length.to_be_bytes()[..], image].concat()
}

/// A request of 40 bits; its last bit is `last`.
pub fn request(process: u32, operation: u32, arguments: [u32; 3], last: u64) -> [u8; 5] {
    let [a, b, c] = arguments.map(u64::from);
    let bits = u64::from(process) << 32 | u64::from(operation) << 28 | a << 19 | b << 10 | c << 1 | last;
    bits.to_be_bytes()[3..].try_into().expect("40 bits are five bytes")
}

/// The image of the small house.
pub fn house_image() -> Vec<u8> {
    save(&small_house().policy)
}

/// The example that the README shows: the small house, what K1 to K6 and K10 ask, a move, a fortieth bit, a request cut short.
pub fn house_example() -> Vec<u8> {
    let asked = [(1, 1, 9), (1, 1, 10), (2, 1, 10), (1, 2, 10), (1, 1, 511), (1, 3, 9), (1, 1, 2), (3, 1, 9)];
    let mut input = with_length(&house_image());
    for (process, operation, object) in asked {
        input.extend(request(process, operation, [object, 0, 0], 0));
    }
    input.extend(request(1, 5, [9, 7, 8], 0));
    input.extend(request(1, 1, [9, 0, 0], 1));
    input.extend([1, 0x10]);
    input
}

/// A request that fits 40 bits, mostly one that is not refused.
fn any_request(random: &mut Random, policy: &Policy) -> [u8; 5] {
    let (process, operation, arguments) = make::request(random, policy);
    let last = u64::from(random.chance(2));
    request(process % 256, operation % 16, arguments.map(|argument| argument % 512), last)
}

/// The input that is stored for `desk_main`: a large policy, every operation on numbers at the borders, made requests, and three bytes at the end.
pub fn desk_script() -> Vec<u8> {
    let mut random = Random::new(2);
    let policy = make::policy(&mut random, Size { prohibitions: 12, ..Size::FULL });
    let mut input = with_length(&save(&policy));
    for operation in 0..16 {
        for process in [0, 1, 2, 255] {
            for object in [0, 1, 255, 256, 510, 511] {
                input.extend(request(process, operation, [object, 0, 0], 0));
                input.extend(request(process, operation, [object, 511, 0], 0));
                input.extend(request(process, operation, [object, 256, 511], 0));
            }
        }
    }
    for _ in 0..6_000 {
        input.extend(any_request(&mut random, &policy));
    }
    input.extend([0xff, 0xff, 0xff]);
    input
}

/// Inputs that differ in what stands before the requests, and some in how many bytes a request has.
pub fn desk_inputs() -> Vec<Vec<u8>> {
    let house = house_image();
    let whole = with_length(&house);
    let asked = request(1, 1, [9, 0, 0], 0);
    let mut inputs = vec![
        vec![],
        vec![0],
        vec![0, 0],
        vec![0, 0, 1, 2, 3, 4, 5],
        vec![0, 1],
        vec![0, 1, 0x10],
        vec![0, 1, 0x20],
        vec![0, 2, 0x20],
    ];
    // Cut in the image, and a length that is one too short or too long.
    inputs.extend([3, 8, whole.len() - 1, whole.len()].map(|length| whole[..length].to_vec()));
    for change in [0xff, 1] {
        let mut other = [whole.clone(), asked.to_vec()].concat();
        other[1] = other[1].wrapping_add(change);
        inputs.push(other);
    }
    // As long as the length can say, of form 1 and of another form, whole, cut, and with requests behind it.
    for form in [0x10, 0x30] {
        let mut longest = vec![0; 65_535];
        longest[0] = form;
        let long = with_length(&longest);
        inputs.push(long[..65_536].to_vec());
        inputs.push([long.clone(), asked.to_vec()].concat());
        inputs.push(long);
    }
    // The empty policy, the house, the furnished house; with requests of no, some and many bytes.
    for policy in [Policy::default(), small_house().policy, furnished()] {
        let image = with_length(&save(&policy));
        for bytes in [0, 1, 2, 3, 4, 5, 6, 9, 10, 4_095, 4_096, 4_097, 8_192] {
            let requests: Vec<u8> = asked.iter().copied().cycle().take(bytes).collect();
            inputs.push([image.clone(), requests].concat());
        }
    }
    // Damaged images: 12, 13 and 14, and nothing more is printed.
    let mut random = Random::new(3);
    for _ in 0..60 {
        let size = Size::small(&mut random);
        let policy = make::policy(&mut random, size);
        let image = make::damaged_image(&mut random, &policy);
        inputs.push([with_length(&image), asked.repeat(3)].concat());
        let requests: Vec<u8> = (0..40).flat_map(|_| any_request(&mut random, &policy)).collect();
        inputs.push([with_length(&save(&policy)), requests].concat());
    }
    inputs
}

/// Inputs and what the desk program prints for each, each behind its length in four bytes, high first.
pub fn desk_runs() -> Vec<u8> {
    let behind_length = |bytes: Vec<u8>| [&(bytes.len() as u32).to_be_bytes()[..], &bytes].concat();
    desk_inputs()
        .into_iter()
        .flat_map(|input| {
            let printed = desk(&input);
            [behind_length(input), behind_length(printed)].concat()
        })
        .collect()
}
