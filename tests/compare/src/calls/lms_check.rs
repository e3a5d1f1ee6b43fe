//! `hirelog_lms_check`: the signature check. It answers a number, for a good signature the leaf that
//! has signed, and the chain steps (document 02, W7).

mod cases;

use crate::call::{Answer, Call, Case, Input, Output, Shape};
use auditor::cases::Size;
use auditor::lms::{check, one_time_type};
use hirelog::sys::{hirelog_lms_check, LmsAnswer};

static SHAPE: Shape = Shape {
    name: "lms_check",
    inputs: &["key", "message", "signature"],
    outputs: &[],
    returns: &["number", "leaf", "steps"],
    numbers: &[0, 15, 16],
    within: &[],
    fewest: (20_000, 5000),
    tool: None,
};

pub struct LmsCheck;

impl Call for LmsCheck {
    fn shape(&self) -> &'static Shape {
        &SHAPE
    }

    fn cases(&self, seed: u64, size: Size, take: &mut dyn FnMut(&Case)) {
        cases::run(seed, size, take);
    }

    fn library(&self, inputs: &[Input], _: &mut [Output]) -> Vec<u64> {
        let [key, message, signature] = inputs else { unreachable!("three inputs") };
        // SAFETY: as the harness says.
        let LmsAnswer { number, leaf, steps } = unsafe {
            hirelog_lms_check(
                key.start(),
                key.length(),
                message.start(),
                message.length(),
                signature.start(),
                signature.length(),
            )
        };
        vec![number.into(), leaf.into(), steps.into()]
    }

    fn auditor(&self, inputs: &[&[u8]], _: &mut [&mut [u8]]) -> Vec<u64> {
        let verdict = check(inputs[0], inputs[1], inputs[2]);
        vec![verdict.number().into(), verdict.leaf().into(), verdict.steps().into()]
    }

    /// What document 02, W7 says of any count: whether it can be one.
    fn also_wrong(&self, inputs: &[&[u8]], answer: &Answer) -> Option<String> {
        let [number, _, steps] = answer.returned[..] else { unreachable!("three values") };
        let code = inputs[0].get(4..).and_then(|rest| rest.first_chunk());
        let possible = match code.and_then(|code| one_time_type(u32::from_be_bytes(*code))) {
            _ if steps == 0 => number != 0,
            _ if number == 16 => false,
            Some(kind) if kind.w == 8 => steps % 255 == 0 && (510..=8415).contains(&steps),
            Some(kind) => steps <= kind.p as u64 * ((1 << kind.w) - 1),
            None => false,
        };
        (!possible).then(|| format!("number {number} has {steps} steps"))
    }
}
