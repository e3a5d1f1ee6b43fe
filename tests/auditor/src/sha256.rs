//! SHA-256 as FIPS 180-4 defines it.

pub type Digest = [u8; 32];

/// The first primes.
const fn primes<const COUNT: usize>() -> [u128; COUNT] {
    let mut found = [0; COUNT];
    let (mut count, mut number) = (0, 2);
    while count < COUNT {
        let mut i = 0;
        while i < count && number % found[i] != 0 {
            i += 1;
        }
        if i == count {
            found[count] = number;
            count += 1;
        }
        number += 1;
    }
    found
}

/// The first 32 fraction bits of the square (2) or cube (3) root of each prime:
/// floor(root(p) * 2^32) is the whole-number root of p * 2^(32 * degree).
const fn root_fractions<const COUNT: usize>(degree: u32) -> [u32; COUNT] {
    let primes = primes::<COUNT>();
    let mut words = [0; COUNT];
    let mut i = 0;
    while i < COUNT {
        let (mut low, mut high) = (0u128, 1u128 << 40);
        while high - low > 1 {
            let middle = (low + high) / 2;
            if middle.pow(degree) <= primes[i] << (32 * degree) {
                low = middle;
            } else {
                high = middle;
            }
        }
        words[i] = low as u32;
        i += 1;
    }
    words
}

/// FIPS 180-4, 4.2.2: the round constants.
const K: [u32; 64] = root_fractions(3);

/// FIPS 180-4, 5.3.3: the initial hash value.
const INITIAL: [u32; 8] = root_fractions(2);

/// FIPS 180-4, 6.2.2: the hash value after one more block.
fn compress(state: &mut [u32; 8], block: &[u8; 64]) {
    // Step 1: the message schedule.
    let mut w = [0u32; 64];
    for t in 0..16 {
        w[t] = u32::from_be_bytes([
            block[4 * t],
            block[4 * t + 1],
            block[4 * t + 2],
            block[4 * t + 3],
        ]);
    }
    for t in 16..64 {
        let s0 = w[t - 15].rotate_right(7) ^ w[t - 15].rotate_right(18) ^ (w[t - 15] >> 3);
        let s1 = w[t - 2].rotate_right(17) ^ w[t - 2].rotate_right(19) ^ (w[t - 2] >> 10);
        w[t] = s1.wrapping_add(w[t - 7]).wrapping_add(s0).wrapping_add(w[t - 16]);
    }
    // Steps 2 and 3: the working variables and the rounds.
    let [mut a, mut b, mut c, mut d, mut e, mut f, mut g, mut h] = *state;
    for t in 0..64 {
        let sum1 = e.rotate_right(6) ^ e.rotate_right(11) ^ e.rotate_right(25);
        let ch = (e & f) ^ (!e & g);
        let t1 = h.wrapping_add(sum1).wrapping_add(ch).wrapping_add(K[t]).wrapping_add(w[t]);
        let sum0 = a.rotate_right(2) ^ a.rotate_right(13) ^ a.rotate_right(22);
        let maj = (a & b) ^ (a & c) ^ (b & c);
        let t2 = sum0.wrapping_add(maj);
        (h, g, f, e, d, c, b, a) = (g, f, e, d.wrapping_add(t1), c, b, a, t1.wrapping_add(t2));
    }
    // Step 4: the next hash value.
    for (word, sum) in state.iter_mut().zip([a, b, c, d, e, f, g, h]) {
        *word = word.wrapping_add(sum);
    }
}

/// The most bytes that one block has room for, beside a one bit and the length.
pub const ONE_BLOCK: usize = 64 - 9;

/// The digest of so many bytes, without copying them part by part: that of a chain's values, of
/// which there are millions.
pub fn sha256_of_one_block(bytes: &[u8; ONE_BLOCK]) -> Digest {
    let mut block = [0; 64];
    block[..ONE_BLOCK].copy_from_slice(bytes);
    block[ONE_BLOCK] = 0x80;
    block[56..].copy_from_slice(&(8 * ONE_BLOCK as u64).to_be_bytes());
    let mut state = INITIAL;
    compress(&mut state, &block);
    written(state)
}

/// The digest of the parts, one after the other.
pub fn sha256(parts: &[&[u8]]) -> Digest {
    let mut state = INITIAL;
    let mut block = [0u8; 64];
    let mut filled = 0;
    let mut bits = 0u64;
    for part in parts {
        bits += 8 * part.len() as u64;
        let mut rest = *part;
        while !rest.is_empty() {
            let taken = rest.len().min(64 - filled);
            block[filled..filled + taken].copy_from_slice(&rest[..taken]);
            filled += taken;
            rest = &rest[taken..];
            if filled == 64 {
                compress(&mut state, &block);
                filled = 0;
            }
        }
    }
    // 5.1.1: a one bit, zero bits, and the length in 64 bits.
    block[filled] = 0x80;
    block[filled + 1..].fill(0);
    if filled + 9 > 64 {
        compress(&mut state, &block);
        block.fill(0);
    }
    block[56..].copy_from_slice(&bits.to_be_bytes());
    compress(&mut state, &block);
    written(state)
}

/// The last hash value's words as bytes.
fn written(state: [u32; 8]) -> Digest {
    let mut digest = [0; 32];
    for (bytes, word) in digest.chunks_exact_mut(4).zip(state) {
        bytes.copy_from_slice(&word.to_be_bytes());
    }
    digest
}

#[cfg(test)]
mod tests {
    use super::*;

    /// FIPS 180-4, 4.2.2 and 5.3.3: the first and last words printed there.
    #[test]
    fn constants() {
        assert_eq!((K[0], K[63]), (0x428a2f98, 0xc67178f2));
        assert_eq!((INITIAL[0], INITIAL[7]), (0x6a09e667, 0x5be0cd19));
    }

    /// However the bytes are cut into parts, the digest is the same.
    #[test]
    fn parts() {
        let bytes: Vec<u8> = (0..200).collect();
        for cut in 0..=bytes.len() {
            assert_eq!(sha256(&[&bytes[..cut], &bytes[cut..]]), sha256(&[&bytes]));
        }
    }

    /// What fills one block has the same digest either way.
    #[test]
    fn one_block() {
        let bytes: [u8; ONE_BLOCK] = std::array::from_fn(|i| i as u8 ^ 0x5a);
        assert_eq!(sha256_of_one_block(&bytes), sha256(&[&bytes]));
    }
}
