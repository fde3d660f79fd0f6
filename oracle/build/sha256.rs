//! SHA-256 (FIPS 180-4), so that the build needs no crate for it.

/// The SHA-256 of `bytes` in lower-case hexadecimal.
pub fn sha256_hex(bytes: &[u8]) -> String {
    let round_constants: [u32; 64] = root_fractions(3);
    let mut state: [u32; 8] = root_fractions(2);
    for block in padded(bytes).chunks_exact(64) {
        state = after_block(state, block, &round_constants);
    }
    state.iter().map(|word| format!("{word:08x}")).collect()
}

/// The message, a one bit, zeros, and its length in bits.
fn padded(bytes: &[u8]) -> Vec<u8> {
    let mut message = bytes.to_vec();
    message.push(0x80);
    while message.len() % 64 != 56 {
        message.push(0);
    }
    message.extend((bytes.len() as u64 * 8).to_be_bytes());
    message
}

/// The first 32 bits behind the point of the roots of the first primes.
fn root_fractions<const N: usize>(power: u32) -> [u32; N] {
    let mut primes = (2u128..).filter(|n| (2..*n).all(|divisor| n % divisor != 0));
    std::array::from_fn(|_| {
        let prime = primes.next().expect("there is always another prime");
        integer_root(power, prime << (32 * power)) as u32
    })
}

/// The largest number whose `power` is at most `n`.
fn integer_root(power: u32, n: u128) -> u128 {
    (0..37).rev().fold(0, |root, bit| {
        let next = root | 1 << bit;
        if next.pow(power) <= n { next } else { root }
    })
}

/// The state after one more block of 64 bytes.
fn after_block(state: [u32; 8], block: &[u8], round_constants: &[u32; 64]) -> [u32; 8] {
    let schedule = schedule(block);
    let [mut a, mut b, mut c, mut d, mut e, mut f, mut g, mut h] = state;
    for (word, constant) in schedule.iter().zip(round_constants) {
        let choice = (e & f) ^ (!e & g);
        let majority = (a & b) ^ (a & c) ^ (b & c);
        let first = h
            .wrapping_add(e.rotate_right(6) ^ e.rotate_right(11) ^ e.rotate_right(25))
            .wrapping_add(choice)
            .wrapping_add(*constant)
            .wrapping_add(*word);
        let second = (a.rotate_right(2) ^ a.rotate_right(13) ^ a.rotate_right(22)).wrapping_add(majority);
        (h, g, f, e) = (g, f, e, d.wrapping_add(first));
        (d, c, b, a) = (c, b, a, first.wrapping_add(second));
    }
    let added = [a, b, c, d, e, f, g, h];
    std::array::from_fn(|i| state[i].wrapping_add(added[i]))
}

/// The 64 words that a block of 64 bytes spreads into.
fn schedule(block: &[u8]) -> [u32; 64] {
    let mut words = [0; 64];
    for (word, bytes) in words.iter_mut().zip(block.chunks_exact(4)) {
        *word = u32::from_be_bytes([bytes[0], bytes[1], bytes[2], bytes[3]]);
    }
    for i in 16..64 {
        let (x, y): (u32, u32) = (words[i - 15], words[i - 2]);
        words[i] = words[i - 16]
            .wrapping_add(x.rotate_right(7) ^ x.rotate_right(18) ^ (x >> 3))
            .wrapping_add(words[i - 7])
            .wrapping_add(y.rotate_right(17) ^ y.rotate_right(19) ^ (y >> 10));
    }
    words
}
