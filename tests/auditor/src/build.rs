//! Makes submissions in which every field can be set to a wrong value.

use crate::roster::Name;
use crate::sha256::sha256;
use crate::statement::{self, pointers, position, Record, Vote};
use crate::submission::{CommitCertificate, LeaderCertificate, Submission, Trailer};

/// The numbers of records before each term's first.
fn starts(records: &[Record]) -> Vec<usize> {
    (0..records.len()).filter(|i| *i == 0 || records[i - 1].term != records[*i].term).collect()
}

/// The index of each term's last record.
pub fn ends(records: &[Record]) -> Vec<usize> {
    let mut ends: Vec<usize> = starts(records).into_iter().skip(1).collect();
    if !records.is_empty() {
        ends.push(records.len());
    }
    ends
}

/// A submission whose fields can be set one by one.
#[derive(Clone, Debug)]
pub struct Draft {
    pub records: Vec<Record>,
    pub leaders: Vec<LeaderCertificate>,
    pub stamps: Vec<Vec<u8>>,
    pub commit: Option<CommitCertificate>,
    pub trailer: Trailer,
}

impl Draft {
    /// A submission that says what its claims do, without signatures and not laid out.
    pub fn unsigned(
        name: Name,
        records: &[Record],
        leaders: &[(u16, u16)],
        commit: Option<(u32, u16)>,
    ) -> Draft {
        let pointers = pointers(records);
        let mut draft = Draft {
            records: records.to_vec(),
            leaders: Vec::new(),
            stamps: Vec::new(),
            commit: None,
            trailer: Trailer { name, records: 0, leaders: 0, distances: [0; 4], version: 1 },
        };
        for (before, (candidate, signers)) in starts(records).into_iter().zip(leaders) {
            let end = position(records, &pointers, before);
            let vote = Vote::on(&end, *candidate, records[before].term);
            let leader = LeaderCertificate { vote, signers: *signers, signatures: Vec::new() };
            draft.leaders.push(leader);
            draft.stamps.push(Vec::new());
        }
        draft.commit = commit.map(|(index, signers)| CommitCertificate {
            index,
            signers,
            signatures: Vec::new(),
        });
        draft
    }

    /// The parts as they are, unchecked.
    pub fn parts_of(&self) -> Submission {
        let Draft { records, leaders, stamps, commit, .. } = self.clone();
        Submission { records, leaders, stamps, commit, uses: Vec::new() }
    }

    /// Sets the counts and the distances to those of the parts as they are.
    pub fn lay_out(&mut self) {
        let [one, two, three, four] = self.part_sizes();
        self.trailer.records = self.records.len() as u32;
        self.trailer.leaders = self.leaders.len() as u32;
        self.trailer.distances =
            [one + two + three + four, two + three + four, three + four, four].map(|d| d as u32);
    }

    /// The bytes of parts 1 to 4.
    pub fn part_sizes(&self) -> [usize; 4] {
        self.parts().map(|part| part.len())
    }

    fn parts(&self) -> [Vec<u8>; 4] {
        let mut parts: [Vec<u8>; 4] = Default::default();
        parts[0] = log_bytes(&self.records);
        for leader in &self.leaders {
            parts[1].extend(statement::vote_fields(&leader.vote));
            parts[1].extend(leader.signers.to_be_bytes());
            parts[1].extend(leader.signatures.concat());
        }
        parts[2] = self.stamps.concat();
        if let Some(commit) = &self.commit {
            parts[3].extend(commit.index.to_be_bytes());
            parts[3].extend(commit.signers.to_be_bytes());
            parts[3].extend(commit.signatures.concat());
        }
        parts
    }

    /// The submission's bytes.
    pub fn bytes(&self) -> Vec<u8> {
        let mut bytes = self.parts().concat();
        bytes.extend(self.trailer.name);
        bytes.extend(self.trailer.records.to_be_bytes());
        bytes.extend(self.trailer.leaders.to_be_bytes());
        for distance in self.trailer.distances {
            bytes.extend(distance.to_be_bytes());
        }
        bytes.extend(self.trailer.version.to_be_bytes());
        bytes
    }
}

/// The bytes of a log: 36 for each record.
pub fn log_bytes(records: &[Record]) -> Vec<u8> {
    records.iter().flat_map(Record::bytes).collect()
}

/// A log of records, each given by its term and by what its payload is the digest of.
pub fn log(records: &[(u32, &str)]) -> Vec<Record> {
    records
        .iter()
        .map(|(term, payload)| Record { term: *term, payload: sha256(&[payload.as_bytes()]) })
        .collect()
}
