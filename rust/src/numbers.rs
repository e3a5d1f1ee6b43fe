//! The numbers of document 01 (What stops an audit) and of document 02 (W1: 17 and 18; W3: 19 to 21),
//! in one table: what each is called, what it means, and what to do about it. docs/C.md has the same
//! for callers in C.

/// A number that a service answers.
#[derive(Clone, Copy, Debug, PartialEq, Eq)]
pub struct Number {
    pub number: u32,
    /// Its name in include/hirelog.h.
    pub name: &'static str,
    /// Document 01's word, as its table has it; those of 17 to 21 are ours.
    pub word: &'static str,
    pub meaning: &'static str,
    pub advice: &'static str,
}

impl Number {
    /// The row of this number, if there is one.
    pub fn of(number: u32) -> Option<&'static Number> {
        NUMBERS.iter().find(|row| row.number == number)
    }
}

const ROSTER_AGAIN: &str = "Copy it again from where it came. If that does not help, ask whoever \
    made the roster for a right one.";
const COPY_AGAIN: &str = "Copy it again from where it came. If that does not help, ask the board \
    whose submission it is for another.";
/// For what the roster's keys decide too.
const COPY_BOTH_AGAIN: &str = "Copy the submission and the roster again from where they came, and \
    see that the roster is the district's present one. If that does not help, ask the board whose \
    submission it is for another.";

/// All numbers, from 0 on.
pub const NUMBERS: &[Number] = &[
    Number {
        number: 0,
        name: "HIRELOG_OK",
        word: "accepted",
        meaning: "Nothing was refused: both submissions are whole, and all their signatures are \
            good.",
        advice: "Read the other lines: they say what was found.",
    },
    Number {
        number: 1,
        name: "HIRELOG_SHORT_REPORT",
        word: "short report",
        meaning: "The buffer for the report is too short (53 bytes for an audit, and for a \
            district's run 4 more than there are submissions), and nothing was written.",
        advice: "Only a program that calls the library can get this: it has to lend as many bytes.",
    },
    Number {
        number: 2,
        name: "HIRELOG_ROSTER_SIZE",
        word: "roster size",
        meaning: "Its size does not go with the number of boards that its bytes 16 and 17 say \
            (3 to 9): 18 bytes, and 56 for each board.",
        advice: "See that it is the district's roster, and copy it again from where it came.",
    },
    Number {
        number: 3,
        name: "HIRELOG_KEY_TYPE",
        word: "key type",
        meaning: "A key in the roster is not of one-time type 4, or not of tree type 5 to 9, or \
            the tree types of the keys differ.",
        advice: ROSTER_AGAIN,
    },
    Number {
        number: 4,
        name: "HIRELOG_DUPLICATE_KEY",
        word: "twin key",
        meaning: "Two boards in the roster have the same key.",
        advice: ROSTER_AGAIN,
    },
    Number {
        number: 5,
        name: "HIRELOG_SIZE",
        word: "size",
        meaning: "The submission has fewer than 44 or more than 2,097,152 bytes.",
        advice: COPY_AGAIN,
    },
    Number {
        number: 6,
        name: "HIRELOG_VERSION",
        word: "version",
        meaning: "The submission does not end in version 1: it is of another version, or was cut \
            short, or has bytes added, or it is no submission at all (a zip, a picture, a text).",
        advice: COPY_AGAIN,
    },
    Number {
        number: 7,
        name: "HIRELOG_CLUSTER",
        word: "cluster",
        meaning:
            "The submission is of another district than the roster, or a byte of the name was \
            damaged.",
        advice: "Take the roster and all submissions from one district. If they are, copy them \
            again from where they came.",
    },
    Number {
        number: 8,
        name: "HIRELOG_COUNTS",
        word: "counts",
        meaning: "The submission says that it has more than 4,096 records or 64 terms.",
        advice: COPY_AGAIN,
    },
    Number {
        number: 9,
        name: "HIRELOG_LAYOUT",
        word: "layout",
        meaning: "The parts of the submission do not stand where its last 44 bytes say: it is \
            damaged, or its keys are of another height than the roster's.",
        advice: COPY_BOTH_AGAIN,
    },
    Number {
        number: 10,
        name: "HIRELOG_SIGNERS",
        word: "signers",
        meaning: "A certificate in the submission is signed by too few boards, or by one that \
            the roster does not have.",
        advice: COPY_AGAIN,
    },
    Number {
        number: 11,
        name: "HIRELOG_TERM_ORDER",
        word: "term order",
        meaning: "The term of a record in the submission is 0, or below that of the record before.",
        advice: COPY_AGAIN,
    },
    Number {
        number: 12,
        name: "HIRELOG_TERM_COUNT",
        word: "term count",
        meaning: "The submission has not one leader certificate for each term of its log.",
        advice: COPY_AGAIN,
    },
    Number {
        number: 13,
        name: "HIRELOG_LEADER",
        word: "leader",
        meaning: "A leader certificate in the submission does not go with its log, or its \
            candidate is no board, or did not sign it.",
        advice: COPY_AGAIN,
    },
    Number {
        number: 14,
        name: "HIRELOG_COMMIT_INDEX",
        word: "commit index",
        meaning: "The commit certificate of the submission names no record of its log.",
        advice: COPY_AGAIN,
    },
    Number {
        number: 15,
        name: "HIRELOG_BAD_SIGNATURE",
        word: "signature",
        meaning: "A signature is bad: it was not made with its board's key for the statement \
            that it stands on, or was damaged since.",
        advice: COPY_BOTH_AGAIN,
    },
    Number {
        number: 16,
        name: "HIRELOG_LONG_MESSAGE",
        word: "long message",
        meaning: "The message has more than 16,777,216 bytes, and the library takes no longer \
            one.",
        advice: "See that it is the file that you meant.",
    },
    Number {
        number: 17,
        name: "HIRELOG_LENGTH_COUNT",
        word: "length count",
        meaning: "A district's run takes two to nine submissions, and there were fewer or more.",
        advice: "Give at least two submissions beside the roster, and at most nine. More than \
            nine take several runs, and only two that are given in one run are compared.",
    },
    Number {
        number: 18,
        name: "HIRELOG_LENGTH_SUM",
        word: "length sum",
        meaning: "The lengths of the submissions do not add up to the buffer that they stand in.",
        advice: "Only a program that calls the library can get this: it has to lend the length \
            of each submission, in bytes, and the buffer with the length of all together.",
    },
    Number {
        number: 19,
        name: "HIRELOG_ITEM",
        word: "item",
        meaning: "The items end inside an item, or the kind of an item is not 1, 2 or 3 (stamp, \
            receipt or vote).",
        advice: "Copy the items again from where they came. If that does not help, see that they \
            follow each other with nothing between, and that all their signatures have the length \
            of the roster's keys: leave out those of a district with other keys.",
    },
    Number {
        number: 20,
        name: "HIRELOG_NO_LEADER",
        word: "no leader",
        meaning: "The items do not show who led a term of the log: no board has good votes of a \
            quorum for it, its own among them, that fit the log, and a good stamp on the term's \
            last record.",
        advice: "Bring in more votes and stamps of that term. If the items should be there, see \
            that the log is the one that was voted on and stamped, and that the roster is the \
            district's present one.",
    },
    Number {
        number: 21,
        name: "HIRELOG_SHORT_OUTPUT",
        word: "short output",
        meaning: "The submission is longer than the buffer for it, and nothing was written.",
        advice: "Only a program that calls the library can get this: 1,404,446 bytes are always \
            enough.",
    },
];

#[cfg(test)]
mod tests {
    use super::*;

    /// Each number from 0 to 21 has a row, at its place, with its texts; names and words differ.
    #[test]
    fn rows() {
        assert_eq!(NUMBERS.len(), 22);
        for (number, row) in (0..).zip(NUMBERS) {
            assert_eq!(row.number, number);
            assert_eq!(Number::of(number), Some(row));
            assert!(row.name.starts_with("HIRELOG_"), "{number}");
            assert!(!row.word.is_empty(), "{number}");
            for text in [row.meaning, row.advice] {
                assert!(text.ends_with('.') && !text.contains("  "), "{number}: {text}");
            }
            let alike = |other: &&Number| other.name == row.name || other.word == row.word;
            assert_eq!(NUMBERS.iter().filter(alike).count(), 1, "{number}");
        }
        assert_eq!(Number::of(22), None);
    }
}
