/*
 * The C interface of libhirelog.a, for x86-64 Linux. A call needs at most 65,536 bytes of stack, but
 * for hirelog_assemble: 81,920 for now; docs/C.md has what was measured, and why. The library allocates
 * nothing, and calls no function but memcpy and memset.
 */
#ifndef HIRELOG_H
#define HIRELOG_H

#include <stddef.h>
#include <stdint.h>

#ifdef __cplusplus
extern "C" {
#endif

/* The longest message, in bytes, that is given a digest or has its signature checked. */
#define HIRELOG_MESSAGE_MAX 16777216

/* The bytes of a digest. */
#define HIRELOG_DIGEST_SIZE 32

/* The bytes of an LMS public key. */
#define HIRELOG_LMS_KEY_SIZE 56

/* The bytes of an audit's report. */
#define HIRELOG_REPORT_SIZE 53

/* The most submissions of a district's run. */
#define HIRELOG_DISTRICT_MAX 9

/* The bytes of the longest report of a district's run: a buffer of so many always does. */
#define HIRELOG_DISTRICT_REPORT_MAX 13

/* The bytes of the longest submission that is assembled: an output of so many always does. */
#define HIRELOG_ASSEMBLED_MAX 1404446

/*
 * The numbers that a function returns. docs/C.md says what each means and what to do about it, in
 * the words of document 01 (What stops an audit); 17 and 18 are document 02's (W1), as are 19 to 21
 * (W3), in our words. docs/NUMBERS.md has the list that these and the rules below are held to.
 */
#define HIRELOG_OK 0
#define HIRELOG_SHORT_REPORT 1
#define HIRELOG_ROSTER_SIZE 2
#define HIRELOG_KEY_TYPE 3
#define HIRELOG_DUPLICATE_KEY 4 /* document 01's twin key */
#define HIRELOG_SIZE 5
#define HIRELOG_VERSION 6
#define HIRELOG_CLUSTER 7
#define HIRELOG_COUNTS 8
#define HIRELOG_LAYOUT 9
#define HIRELOG_SIGNERS 10
#define HIRELOG_TERM_ORDER 11
#define HIRELOG_TERM_COUNT 12
#define HIRELOG_LEADER 13
#define HIRELOG_COMMIT_INDEX 14
#define HIRELOG_BAD_SIGNATURE 15
#define HIRELOG_LONG_MESSAGE 16
#define HIRELOG_LENGTH_COUNT 17
#define HIRELOG_LENGTH_SUM 18
#define HIRELOG_ITEM 19
#define HIRELOG_NO_LEADER 20
#define HIRELOG_SHORT_OUTPUT 21

/* The rules, as a report's row has them; hirelog_audit below says what each is. */
#define HIRELOG_RULE_TWO_VOTES 1
#define HIRELOG_RULE_TWO_STAMPS 2
#define HIRELOG_RULE_STALE_VOTE 3
#define HIRELOG_RULE_STALE_VOTE_EXCHANGED 4
#define HIRELOG_RULE_ONE_LEAF 5

/*
 * SHA-256 (FIPS 180-4) of the first message_len bytes at message.
 *
 * Returns
 *   HIRELOG_OK            if message_len is at most HIRELOG_MESSAGE_MAX: all 32 bytes at digest
 *                         are written, and they are the message's digest;
 *   HIRELOG_LONG_MESSAGE  if message_len is above HIRELOG_MESSAGE_MAX: nothing is written.
 * No other number is returned.
 *
 * The caller sees to it that
 *   - message points to message_len readable bytes; where message_len is 0 it may be NULL;
 *   - digest points to 32 writable bytes, also for a message that is too long; it is never NULL;
 *   - the message and the digest do not overlap;
 *   - no other thread writes the message, or reads or writes the digest, during the call.
 * Neither pointer has to be aligned.
 *
 * The message is never changed, no byte outside it is read, and no byte but the digest's 32 is
 * written. No state is kept from one call to the next, so several threads may call this at the
 * same time, each with a digest of its own; they may share a message.
 */
uint32_t hirelog_sha256(const uint8_t *message, size_t message_len,
                        uint8_t digest[HIRELOG_DIGEST_SIZE]);

/*
 * What the signature check returns. With document 02's W7 it has grown from 8 bytes to 12, by its
 * last member: build callers anew.
 */
struct hirelog_lms_answer {
    uint32_t number; /* HIRELOG_OK, HIRELOG_BAD_SIGNATURE or HIRELOG_LONG_MESSAGE */
    uint32_t leaf;   /* the leaf's number, from 0 on; 0 with any number but HIRELOG_OK */
    uint32_t steps;  /* the chain steps, of a bad signature too; 0 if the check ended before them */
};

/*
 * Whether an LMS signature (RFC 8554, algorithm 6) of the first message_len bytes at message is
 * good for a public key, with which of the key's leaves it was made, and how many chain steps the
 * check takes. Key and signature are those of LMS itself, not of HSS.
 *
 * Returns, by value, a number, a leaf and a count of steps. The number is
 *   HIRELOG_LONG_MESSAGE   if message_len is above HIRELOG_MESSAGE_MAX, whatever the key and the
 *                          signature are;
 *   HIRELOG_OK             else, if the signature is good: algorithm 6 accepts it;
 *   HIRELOG_BAD_SIGNATURE  else.
 * No other number is returned. A leaf is one of the key's one-time keys, each for one message. With
 * HIRELOG_OK the answer's leaf is the number of the one that the signature was made with, below 2 to
 * the power of the tree's height; with any other number it is 0, whatever the signature says. 0 is a
 * leaf too: look at the number first.
 *
 * The types known are those of SHA-256 with 32 bytes: one-time types 1 to 4 (digit widths 1, 2, 4
 * and 8) and tree types 5 to 9 (heights 5, 10, 15, 20 and 25). A signature is bad if
 *   - key_len is not HIRELOG_LMS_KEY_SIZE;
 *   - the key's tree type or one-time type is not a known one;
 *   - the signature's tree type or one-time type is not the key's;
 *   - signature_len is not the length that these types give, to the byte;
 *   - its leaf number is not one of the tree's, below 2 to the power of the height;
 *   - or what is computed from the message and the signature is not the key's root.
 * Steps of 0 tell the first five from the last; which of the five it was is not told apart.
 *
 * A step (document 02, W7) is one hash in a chain of the one-time signature (RFC 8554, 4.6,
 * algorithm 4b, step 3): with digits of width w a chain leads from its digit to 2^w - 1. The hashes
 * of the message, of the one-time public key and of the tree are not counted. With
 * HIRELOG_LONG_MESSAGE, and where the signature is bad for one of those five reasons, no chain is
 * begun, and steps is 0. Else it is the count of all chains, of a bad signature too: that it is bad
 * shows after them. It is then above 0, and at most the number of chains times 2^w - 1: 265, 399,
 * 1,005 and 8,670 for one-time types 1 to 4. For type 4 it is 510 plus 255 for each whole 256 in
 * the checksum (RFC 8554, 4.4), from 510 to 8,415.
 *
 * The caller sees to it that
 *   - key points to key_len readable bytes, message to message_len and signature to signature_len;
 *     each of the three may be NULL where its length is 0;
 *   - no other thread writes any of them during the call.
 * No pointer has to be aligned, and the three may overlap.
 *
 * No byte outside the three is read, and nothing is written: the answer is what is returned. No
 * state is kept from one call to the next, so several threads may call this at the same time, and
 * may share a key, a message and a signature. A call sees one signature: that a leaf was used for
 * two messages shows in the leaves of several. hirelog_audit notices it in two submissions, by
 * HIRELOG_RULE_ONE_LEAF.
 */
struct hirelog_lms_answer hirelog_lms_check(const uint8_t *key, size_t key_len,
                                            const uint8_t *message, size_t message_len,
                                            const uint8_t *signature, size_t signature_len);

/*
 * The audit of two submissions against a roster (document 01): which replicas, that paper's boards,
 * signed statements that contradict each other, or two with one leaf of their key (document 02, W5),
 * and the first index at which both committed different records.
 *
 * Returns the report's number: HIRELOG_OK if both submissions are accepted, else the first of 1 to
 * 15 that applies, in this order: HIRELOG_SHORT_REPORT, 2 to 4 for the roster, 5 to 15 for the
 * first submission, 5 to 15 for the second. HIRELOG_LONG_MESSAGE is never returned.
 *
 * With HIRELOG_SHORT_REPORT (report_len below HIRELOG_REPORT_SIZE) nothing is written. Else the
 * first 53 bytes at report are written, and the others are left as they were. All numbers in them
 * are big-endian:
 *   byte 0        the number;
 *   byte 1        the place (document 01's where): 1 or 2 for a number of that submission, else 0;
 *   bytes 2 to 5  the fork index, 0 if there is none;
 *   bytes 6 to 7  the replicas named: bit k - 1, counted from the lowest, is replica k, which has
 *                 the roster's key k;
 *   bytes 8 to 52 nine rows of 5 bytes, for replicas 1 to 9: of the rules that the replica broke the
 *                 first in the order 2, 1, 3, 4, 5 (1 byte), and the lowest term for it, or for rule
 *                 5 the lowest leaf number (4 bytes); 0 and 0 if it is not named.
 * After a refusal bytes 2 to 52 are 0. The rules, 1 to 4 each on one statement from the first
 * submission and one from the second, and the row's term:
 *   1  HIRELOG_RULE_TWO_VOTES: two different votes of one term, for two candidates, or for one, but
 *      not with the same last term, last index and last pointer; that term;
 *   2  HIRELOG_RULE_TWO_STAMPS: stamps of one term on logs that differ in a record that both cover;
 *      that term;
 *   3  HIRELOG_RULE_STALE_VOTE: a receipt in the first's commit certificate, and a vote of a higher
 *      term in the second for a log staler than the record at that index (term compared first, then
 *      index); the vote's term;
 *   4  HIRELOG_RULE_STALE_VOTE_EXCHANGED: rule 3 with the submissions exchanged;
 *   5  HIRELOG_RULE_ONE_LEAF: two signatures of the replica with one leaf number and different
 *      messages (statements, compared as bytes), both in the first, both in the second or one in
 *      each; the row has the lowest such leaf number in place of the term.
 * The order 2, 1, 3, 4, 5 (document 02, W6) decides the row alone: not who is named. A replica may
 * have broken rules that come later in it too, which its row does not tell. Rule 5 comes last: a row
 * has it only where the replica broke no other. It needs no fork, and is the same with the
 * submissions exchanged. 0 is a leaf number too, so that a row of 5 and 0 is that of a replica which
 * is named: its rule and bytes 6 to 7 tell, not the term.
 *
 * The caller sees to it that
 *   - roster points to roster_len readable bytes, first to first_len, second to second_len, and
 *     report to report_len writable ones; each of the four may be NULL where its length is 0;
 *   - the report overlaps none of the other three, which may overlap each other;
 *   - no other thread writes any of the four, or reads the report, during the call.
 * No pointer has to be aligned.
 *
 * The roster and the submissions are never changed, no byte outside the four is read, and no byte
 * but the report's first 53 is written. No state is kept from one call to the next, so several
 * threads may call this at the same time, each with a report of its own.
 */
uint32_t hirelog_audit(const uint8_t *roster, size_t roster_len, const uint8_t *first,
                       size_t first_len, const uint8_t *second, size_t second_len,
                       uint8_t *report, size_t report_len);

/*
 * A district's run (document 02, W1): judges each of 2 to 9 submissions by itself, and audits every
 * two of those that are accepted. The submissions stand end to end at buffer, and lengths[i - 1] is
 * the number of bytes of submission i, from 1.
 *
 * Returns HIRELOG_OK if the run is made, else the first of these that applies, in this order:
 *   2 to 4                for the roster, as in hirelog_audit;
 *   HIRELOG_LENGTH_COUNT  if count is below 2 or above HIRELOG_DISTRICT_MAX;
 *   HIRELOG_LENGTH_SUM    if the lengths do not add up to buffer_len: as whole numbers, nothing
 *                         wraps;
 *   HIRELOG_SHORT_REPORT  if report_len is below count + 4.
 * No other number is returned. A submission that is refused has its number in the report alone.
 *
 * With any number but HIRELOG_OK nothing is written, which is not so in hirelog_audit. With
 * HIRELOG_OK the first count + 4 bytes at report are written, and the others are left as they were:
 *   bytes 0 to count - 1          byte i - 1 is the number of submission i by itself: HIRELOG_OK if
 *                                 it is accepted, else the first of 5 to 15 that applies
 *                                 (HIRELOG_SIZE where its length is 0);
 *   bytes count to count + 1      the replicas named, big-endian: bit k - 1, counted from the
 *                                 lowest, is replica k. It is named if hirelog_audit names it for
 *                                 any two accepted submissions, the one of lower position first;
 *   bytes count + 2 to count + 3  the first two accepted submissions that fork, by the lower
 *                                 position, then by the higher: their positions, a byte each,
 *                                 counted from 1 over all lengths; 0 and 0 if none do.
 * A submission that is refused is left out of the pairs, and keeps its position. A replica can be
 * named without a fork. With fewer than two accepted submissions nobody is named, not even by
 * HIRELOG_RULE_ONE_LEAF, which two signatures in one of them can break. Which rule a replica broke,
 * in which term or with which leaf, and the fork index are not told here: hirelog_audit of two
 * submissions tells them.
 *
 * Each submission is judged once, its signatures with it, in however many pairs it is.
 *
 * The caller sees to it that
 *   - roster points to roster_len readable bytes, buffer to buffer_len, lengths to count readable
 *     numbers, in the machine's own byte order, and report to report_len writable bytes; each of
 *     the four may be NULL where its length or count is 0;
 *   - lengths is aligned as a uint32_t has to be; no other pointer has to be aligned;
 *   - the report overlaps none of the other three, which may overlap each other;
 *   - no other thread writes any of the four, or reads the report, during the call.
 *
 * The roster, the submissions and the lengths are never changed, nothing outside the four is read,
 * and no byte but the report's first count + 4 is written. No state is kept from one call to the
 * next, so several threads may call this at the same time, each with a report of its own.
 */
uint32_t hirelog_district(const uint8_t *roster, size_t roster_len, const uint8_t *buffer,
                          size_t buffer_len, const uint32_t *lengths, size_t count,
                          uint8_t *report, size_t report_len);

/* What a call returns that writes bytes whose length the caller does not know beforehand. */
struct hirelog_written {
    uint32_t number; /* HIRELOG_OK, or why nothing was written */
    size_t length;   /* the bytes written, from the output's first on; 0 with another number */
};

/*
 * Assembles a submission (document 02, W3) of a log and the signatures for it that items have.
 *
 * The log has records of 36 bytes, one after the other, as a submission has them: term (4 bytes),
 * payload digest. An item is a replica's number (2 bytes), a statement that it signed, and the
 * signature. The statement is a stamp or a receipt (kinds 1 and 2, 57 bytes) or a vote (kind 3, 63
 * bytes), as document 01 has them (Chain and statements); the signature has the length that the
 * roster's keys give it, 1,132 + 32 x h bytes for trees of height h. Items stand one after the
 * other, in any order, as many as there are (document 02's bag). All numbers are big-endian.
 *
 * Returns HIRELOG_OK and a length if the submission is written; else length 0, and the first of
 * these numbers that applies, in this order:
 *   2 to 4                for the roster, as in hirelog_audit;
 *   HIRELOG_COUNTS        if the log ends inside a record, or has more than 4,096 records or 64
 *                         different terms: lend whole records, as many as a submission may have;
 *   HIRELOG_TERM_ORDER    if a record's term is 0 or below the one before: lend the log as it was
 *                         kept by a replica;
 *   HIRELOG_ITEM          if the last item is cut short, or the kind of an item is not 1, 2 or 3,
 *                         whatever cluster or replica it is of: lend whole items, without anything
 *                         between them, with signatures of the roster's length;
 *   HIRELOG_NO_LEADER     if the items do not show who led some term of the log: lend more of them,
 *                         or fewer records. This number is given even if the output is too short;
 *   HIRELOG_SHORT_OUTPUT  if output_len is below the length of the submission: lend
 *                         HIRELOG_ASSEMBLED_MAX bytes, which always do.
 * No other number is returned.
 *
 * With any number but HIRELOG_OK nothing is written. With HIRELOG_OK the submission stands in the
 * first length bytes at output, and the others are left as they were. hirelog_audit and
 * hirelog_district accept it against the same roster, and its log is the one that was lent. It has
 *   - for each term of the log a leader certificate. Its candidate is the lowest-numbered replica
 *     that has a quorum of votes which fit the log, its own among them, and a good stamp on the
 *     term's last record; it has the votes for this candidate of all replicas;
 *   - for each term that candidate's stamp;
 *   - a commit certificate for the highest index at which a quorum of replicas has receipts which
 *     fit the log, with those of all replicas; none if there is no such index.
 * A vote fits the log if it is for that candidate in that term, and its last term, index and pointer
 * are those of the record before the term's first (0, 0 and pointer 0 where there is none); a receipt,
 * if its term, index and pointer are those of the record at that index, as is a stamp on a record.
 * Votes, stamps and receipts are those of good items. Passed over are items with another cluster's
 * name, of a number that no replica of the roster has, with a bad signature, or on a statement that
 * does not fit the log. Of several good ones of one replica on one statement the first counts. An
 * empty log gives the submission of a trailer alone, whatever the items are, if they are whole and
 * of known kinds.
 *
 * The caller sees to it that
 *   - roster points to roster_len readable bytes, log to log_len, items to items_len, and output to
 *     output_len writable ones; each of the four may be NULL where its length is 0;
 *   - the output overlaps none of the other three, which may overlap each other;
 *   - no other thread writes any of the four, or reads the output, during the call.
 * No pointer has to be aligned, and items_len has no limit.
 *
 * The roster, the log and the items are never changed, no byte outside the four is read, and of the
 * output no byte after the first length is written. No state is kept from one call to the next, so
 * several threads may call this at the same time, each with an output of its own.
 */
struct hirelog_written hirelog_assemble(const uint8_t *roster, size_t roster_len,
                                        const uint8_t *log, size_t log_len, const uint8_t *items,
                                        size_t items_len, uint8_t *output, size_t output_len);

#ifdef __cplusplus
}
#endif

#endif
