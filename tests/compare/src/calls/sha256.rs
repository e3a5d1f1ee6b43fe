//! `hirelog_sha256`: messages of every length that ends a block in another way, and too long ones.

use crate::call::{number, Call, Case, Input, Output, Shape};
use auditor::cases::Size;
use auditor::lms::MESSAGE_LIMIT;
use auditor::random::Random;
use auditor::sha256::sha256;
use hirelog::sys::hirelog_sha256;

static SHAPE: Shape = Shape {
    name: "sha256",
    inputs: &["message"],
    outputs: &[("digest", 32)],
    returns: &["number"],
    numbers: &[0, 16],
    within: &[],
    fewest: (2000, 200),
    tool: None,
};

pub struct Sha256;

impl Call for Sha256 {
    fn shape(&self) -> &'static Shape {
        &SHAPE
    }

    fn cases(&self, seed: u64, size: Size, take: &mut dyn FnMut(&Case)) {
        let mut random = Random::new(seed);
        let mut message = |name: &str, bytes: &[u8]| {
            let right = if bytes.len() > MESSAGE_LIMIT { 16 } else { 0 };
            let name = format!("{name}{} bytes", bytes.len());
            take(&Case { name, inputs: vec![bytes], outputs: vec![32], expect: number(right) });
        };
        let step = if size == Size::Full { 1 } else { 7 };
        for length in (0..=1100).step_by(step) {
            message("", &random.bytes(length));
        }
        for _ in 0..1000 / step {
            let length = random.below(20_000);
            message("any ", &random.bytes(length));
        }
        for byte in [0, 0xff] {
            message("all the same, ", &[byte; 4096]);
        }
        let mut longest = random.bytes(MESSAGE_LIMIT);
        message("longest, ", &longest);
        longest.push(7);
        message("too long, ", &longest);
        // 5 when it is cut to 32 bits. The memory is zero and never touched.
        if size == Size::Full && usize::BITS == 64 {
            message("far too long, ", &vec![0; u32::MAX as usize + 6]);
        }
    }

    fn library(&self, inputs: &[Input], outputs: &mut [Output]) -> Vec<u64> {
        // SAFETY: as the harness says; a digest's buffer has 32 bytes.
        let number = unsafe {
            hirelog_sha256(inputs[0].start(), inputs[0].length(), outputs[0].start().cast())
        };
        vec![number.into()]
    }

    fn auditor(&self, inputs: &[&[u8]], outputs: &mut [&mut [u8]]) -> Vec<u64> {
        if inputs[0].len() > MESSAGE_LIMIT {
            return vec![16];
        }
        outputs[0].copy_from_slice(&sha256(&[inputs[0]]));
        vec![0]
    }
}
