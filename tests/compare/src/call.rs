//! A call of the library, a case of it, and an answer to one. All of a case is bytes: inputs, and
//! the lengths of the buffers to write into. So cases are written, read and compared in one way.

use auditor::cases::Size;
use std::ptr;

/// What the harness has to know of a call; the names are those of a case's files, too.
pub struct Shape {
    pub name: &'static str,
    pub inputs: &'static [&'static str],
    /// The buffers that it writes into, each with its length where files do not say.
    pub outputs: &'static [(&'static str, usize)],
    /// What it returns; the first is the number by which cases are counted.
    pub returns: &'static [&'static str],
    /// The numbers that have to come up in the fixed set.
    pub numbers: &'static [u64],
    /// Those that have to come up in it within what is written.
    pub within: &'static [u64],
    /// The fewest cases of the fixed set, and of a fresh one.
    pub fewest: (u64, u64),
    /// The program of tests/c that runs a case's folder, if there is one.
    pub tool: Option<&'static str>,
}

/// A call that is compared.
pub trait Call {
    fn shape(&self) -> &'static Shape;

    /// Hands on every case of the set that the seed makes: the full one has the fixed seed, small
    /// ones fresh seeds.
    fn cases(&self, seed: u64, size: Size, take: &mut dyn FnMut(&Case));

    /// The library: what it returns. Each buffer's pointer is to as many bytes as its length says,
    /// or NULL where there are none; those of outputs are writable and apart from all others.
    fn library(&self, inputs: &[Input], outputs: &mut [Output]) -> Vec<u64>;

    /// The auditor: what has to be returned and written.
    fn auditor(&self, inputs: &[&[u8]], outputs: &mut [&mut [u8]]) -> Vec<u64>;

    /// The numbers within what is written by an answer, if there can be some.
    fn within(&self, _inputs: &[&[u8]], _answer: &Answer) -> Vec<u64> {
        Vec::new()
    }

    /// What else is wrong with an answer that both sides gave, if something is.
    fn also_wrong(&self, _inputs: &[&[u8]], _answer: &Answer) -> Option<String> {
        None
    }
}

/// Says why an answer is not the one that a case was made for, if it is not.
pub type Expect<'a> = Option<Box<dyn Fn(&Answer) -> Option<String> + 'a>>;

/// One input of a call. Each of the lists has as many as the call's shape.
pub struct Case<'a> {
    pub name: String,
    pub inputs: Vec<&'a [u8]>,
    /// The lengths of the buffers to write into.
    pub outputs: Vec<usize>,
    pub expect: Expect<'a>,
}

/// Made to get this number.
pub fn number<'a>(right: u64) -> Expect<'a> {
    Some(Box::new(move |answer: &Answer| {
        let found = answer.returned[0];
        (found != right).then(|| format!("made to be {right}, and is {found}"))
    }))
}

/// Bytes kept before and after each buffer that is written into, to see that they stay as they were.
pub const AROUND: usize = 64;

/// What was returned, and the buffers with the bytes around them.
#[derive(Clone, Debug, PartialEq)]
pub struct Answer {
    pub returned: Vec<u64>,
    pub rooms: Vec<Vec<u8>>,
}

impl Answer {
    /// What stands in buffers of these lengths, and around them, before a call.
    pub fn before(lengths: &[usize]) -> Answer {
        let filled = |length: &usize| {
            (0..length + 2 * AROUND).map(|i| (i as u8).wrapping_mul(37) ^ 0xa5).collect()
        };
        Answer { returned: Vec::new(), rooms: lengths.iter().map(filled).collect() }
    }

    /// The buffers without the bytes around them.
    pub fn outputs(&self) -> Vec<&[u8]> {
        self.rooms.iter().map(|room| &room[AROUND..room.len() - AROUND]).collect()
    }

    pub fn outputs_mut(&mut self) -> Vec<&mut [u8]> {
        let inner = |room: &Vec<u8>| AROUND..room.len() - AROUND;
        self.rooms
            .iter_mut()
            .map(|room| (inner(room), room))
            .map(|(at, room)| &mut room[at])
            .collect()
    }
}

/// A buffer that the library reads.
pub struct Input<'a> {
    bytes: &'a [u8],
    null: bool,
}

/// A buffer that the library writes into.
pub struct Output<'a> {
    bytes: &'a mut [u8],
    null: bool,
}

impl<'a> Input<'a> {
    /// With `null`, NULL if there are no bytes.
    pub fn new(bytes: &'a [u8], null: bool) -> Self {
        Input { bytes, null: null && bytes.is_empty() }
    }

    pub fn start(&self) -> *const u8 {
        if self.null {
            ptr::null()
        } else {
            self.bytes.as_ptr()
        }
    }

    pub fn length(&self) -> usize {
        self.bytes.len()
    }

    /// The bytes, for a wrapper, unless NULL is to be given.
    pub fn bytes(&self) -> Option<&[u8]> {
        (!self.null).then_some(self.bytes)
    }
}

impl<'a> Output<'a> {
    /// With `null`, NULL if there are no bytes.
    pub fn new(bytes: &'a mut [u8], null: bool) -> Self {
        let null = null && bytes.is_empty();
        Output { bytes, null }
    }

    pub fn start(&mut self) -> *mut u8 {
        if self.null {
            ptr::null_mut()
        } else {
            self.bytes.as_mut_ptr()
        }
    }

    pub fn length(&self) -> usize {
        self.bytes.len()
    }

    /// The bytes, for a wrapper, unless NULL is to be given.
    pub fn bytes(&mut self) -> Option<&mut [u8]> {
        (!self.null).then_some(&mut *self.bytes)
    }
}
