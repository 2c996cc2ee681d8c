//! The desk program (01, "The desk program").

use crate::decide::Answer;
use crate::explain::explain;
use crate::image::load;
use crate::policy::Policy;
use crate::refusal::{LENGTH, OUT_OF_RANGE};
use std::fmt::Write;

/// A request has 40 bits.
const REQUEST_BYTES: usize = 5;

/// What the desk program prints for an input.
pub fn desk(input: &[u8]) -> Vec<u8> {
    let (policy, requests) = match take_image(input) {
        Ok(taken) => taken,
        Err(number) => return format!("L {number}\n").into_bytes(),
    };
    let counts = policy.counts().map(|count| count.to_string());
    let mut output = format!("P {}\n", counts.join(" "));
    for request in requests.chunks(REQUEST_BYTES) {
        let printed = answer_line(&policy, request);
        writeln!(output, "{printed}").expect("a string takes every line");
    }
    output.into_bytes()
}

/// The policy of the image and the bytes after it. 01: "too few bytes for length or image is `L 12`,
/// of any form".
fn take_image(input: &[u8]) -> Result<(Policy, &[u8]), u32> {
    let [high, low, rest @ ..] = input else {
        return Err(LENGTH);
    };
    let length = usize::from(*high) * 256 + usize::from(*low);
    let (image, requests) = rest.split_at_checked(length).ok_or(LENGTH)?;
    Ok((load(image)?, requests))
}

/// The line for one request: process 8, operation 4, arguments 9, 9, 9, one zero bit.
fn answer_line(policy: &Policy, request: &[u8]) -> String {
    let Ok(bytes) = <[u8; REQUEST_BYTES]>::try_from(request) else {
        return format!("R {LENGTH}");
    };
    let bits = bytes.iter().fold(0, |bits, byte| bits << 8 | u64::from(*byte));
    if bits & 1 == 1 {
        return format!("R {OUT_OF_RANGE}");
    }
    let field = |from_the_right: u32, width: u32| (bits >> from_the_right & ((1 << width) - 1)) as u32;
    let arguments = [field(19, 9), field(10, 9), field(1, 9)];
    let explanation = explain(policy, field(32, 8), field(28, 4), arguments);
    match explanation.answer {
        Answer::Grant(alternative) => format!("G {alternative}"),
        Answer::Refused(number) => format!("R {number}"),
        Answer::Deny => {
            let row = explanation.rows[0];
            format!("D {} {} {} {}", row.argument, row.right, row.cause, row.number)
        }
    }
}
