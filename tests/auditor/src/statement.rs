//! Document 01, Chain and statements: pointers, and the bytes that a signature is made on.

use crate::bytes::{array_at, u32_at};
use crate::roster::Name;
use crate::sha256::{sha256, Digest};

/// Pointer 0.
pub const POINTER_0: Digest = [0; 32];

/// One record of a log.
#[derive(Clone, Copy, Debug, PartialEq, Eq, Hash)]
pub struct Record {
    pub term: u32,
    pub payload: Digest,
}

impl Record {
    /// The record of these 36 bytes.
    pub fn read(bytes: &[u8]) -> Record {
        Record { term: u32_at(bytes, 0), payload: array_at(bytes, 4) }
    }

    /// Its 36 bytes.
    pub fn bytes(&self) -> Vec<u8> {
        [&self.term.to_be_bytes()[..], &self.payload].concat()
    }
}

/// A vote's fields.
#[derive(Clone, Copy, Debug, PartialEq, Eq, Hash)]
pub struct Vote {
    pub candidate: u16,
    pub term: u32,
    pub last_term: u32,
    pub last_index: u32,
    pub last_pointer: Digest,
}

impl Vote {
    /// A vote in a term for a candidate whose log ends there.
    pub fn on(end: &Position, candidate: u16, term: u32) -> Vote {
        let Position { term: last_term, index: last_index, pointer: last_pointer } = *end;
        Vote { candidate, term, last_term, last_index, last_pointer }
    }
}

/// A stamp's or receipt's fields.
#[derive(Clone, Copy, Debug, PartialEq, Eq, Hash)]
pub struct Position {
    pub term: u32,
    pub index: u32,
    pub pointer: Digest,
}

/// What a replica may sign.
#[derive(Clone, Copy, Debug, PartialEq, Eq, Hash)]
pub enum Statement {
    Stamp(Position),
    Receipt(Position),
    Vote(Vote),
}

impl Statement {
    /// The bytes that a signature is made on.
    pub fn bytes(&self, name: &Name) -> Vec<u8> {
        match self {
            Statement::Stamp(at) => stamp(name, at),
            Statement::Receipt(at) => receipt(name, at),
            Statement::Vote(fields) => vote(name, fields),
        }
    }
}

/// Pointers 0 to the log's length, in their order.
pub fn pointers(log: &[Record]) -> Vec<Digest> {
    let mut pointers = vec![POINTER_0];
    for (i, record) in log.iter().enumerate() {
        pointers.push(sha256(&[&chain_string(i + 1, record, &pointers[i])]));
    }
    pointers
}

/// The record at an index, as a stamp or a receipt names it; for index 0 the start of the log, as a
/// vote names that. The pointers are the log's.
pub fn position(log: &[Record], pointers: &[Digest], index: usize) -> Position {
    let term = if index == 0 { 0 } else { log[index - 1].term };
    Position { term, index: index as u32, pointer: pointers[index] }
}

/// The 72 bytes that the pointer at an index is the digest of.
pub fn chain_string(index: usize, record: &Record, before: &Digest) -> Vec<u8> {
    let mut bytes = (index as u32).to_be_bytes().to_vec();
    bytes.extend(record.term.to_be_bytes());
    bytes.extend(record.payload);
    bytes.extend(before);
    bytes
}

/// Kind 1: 57 bytes.
pub fn stamp(name: &Name, at: &Position) -> Vec<u8> {
    position_bytes(1, name, at)
}

/// Kind 2: 57 bytes.
pub fn receipt(name: &Name, at: &Position) -> Vec<u8> {
    position_bytes(2, name, at)
}

/// Kind 3: 63 bytes.
pub fn vote(name: &Name, vote: &Vote) -> Vec<u8> {
    [&[3], &name[..], &vote_fields(vote)].concat()
}

/// The 46 bytes of a vote without kind and name.
pub fn vote_fields(vote: &Vote) -> Vec<u8> {
    let mut bytes = vote.candidate.to_be_bytes().to_vec();
    bytes.extend(vote.term.to_be_bytes());
    bytes.extend(vote.last_term.to_be_bytes());
    bytes.extend(vote.last_index.to_be_bytes());
    bytes.extend(vote.last_pointer);
    bytes
}

fn position_bytes(kind: u8, name: &Name, at: &Position) -> Vec<u8> {
    let mut bytes = vec![kind];
    bytes.extend(name);
    bytes.extend(at.term.to_be_bytes());
    bytes.extend(at.index.to_be_bytes());
    bytes.extend(at.pointer);
    bytes
}

#[cfg(test)]
mod tests {
    use super::*;

    /// The lengths that document 01 gives.
    #[test]
    fn lengths() {
        let at = Position { term: 1, index: 2, pointer: [3; 32] };
        assert_eq!((stamp(&[0; 16], &at).len(), receipt(&[0; 16], &at).len()), (57, 57));
        let fields =
            Vote { candidate: 1, term: 2, last_term: 3, last_index: 4, last_pointer: [5; 32] };
        assert_eq!((vote_fields(&fields).len(), vote(&[0; 16], &fields).len()), (46, 63));
    }

    /// Each pointer is the digest of its 72-byte chain string.
    #[test]
    fn chain_strings() {
        let log = [Record { term: 1, payload: [7; 32] }, Record { term: 258, payload: [8; 32] }];
        let pointers = pointers(&log);
        assert_eq!(pointers[0], [0; 32]);
        let mut string = vec![0, 0, 0, 2, 0, 0, 1, 2];
        string.extend([8; 32]);
        string.extend(pointers[1]);
        assert_eq!(string.len(), 72);
        assert_eq!(chain_string(2, &log[1], &pointers[1]), string);
        assert_eq!(pointers[2], sha256(&[&string]));
        assert_eq!(pointers.len(), 3);
    }
}
