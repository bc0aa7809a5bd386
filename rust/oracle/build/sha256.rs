//! SHA-256 (FIPS 180-4), for the check that the crate's files are as they were.

fn round_constants() -> [u32; 64] {
    fractions(cube_root_bits)
}

fn first_state() -> [u32; 8] {
    fractions(square_root_bits)
}

/// The first 32 fraction bits of a root of the first primes.
fn fractions<const N: usize>(bits: fn(u64) -> u32) -> [u32; N] {
    let prime = |n: &u64| (2..*n).all(|d| !n.is_multiple_of(d));
    let mut primes = (2u64..).filter(prime);
    std::array::from_fn(|_| bits(primes.next().expect("there are enough primes")))
}

/// The largest x with `fits(x)`, by bits; x stays below 2 to the 36.
fn largest(fits: impl Fn(u128) -> bool) -> u32 {
    (0..36).rev().fold(0u128, |x, bit| if fits(x | 1 << bit) { x | 1 << bit } else { x }) as u32
}

fn square_root_bits(prime: u64) -> u32 {
    largest(|x| x * x <= u128::from(prime) << 64)
}

fn cube_root_bits(prime: u64) -> u32 {
    largest(|x| x * x * x <= u128::from(prime) << 96)
}

fn padded(bytes: &[u8]) -> Vec<u8> {
    let mut message = bytes.to_vec();
    message.push(0x80);
    while message.len() % 64 != 56 {
        message.push(0);
    }
    message.extend((bytes.len() as u64 * 8).to_be_bytes());
    message
}

fn block(state: &mut [u32; 8], block: &[u8], constants: &[u32; 64]) {
    let mut w = [0u32; 64];
    for (word, bytes) in w.iter_mut().zip(block.chunks_exact(4)) {
        *word = u32::from_be_bytes(bytes.try_into().expect("four bytes"));
    }
    for t in 16..64 {
        let (a, b) = (w[t - 15], w[t - 2]);
        let s0 = a.rotate_right(7) ^ a.rotate_right(18) ^ (a >> 3);
        let s1 = b.rotate_right(17) ^ b.rotate_right(19) ^ (b >> 10);
        w[t] = w[t - 16].wrapping_add(s0).wrapping_add(w[t - 7]).wrapping_add(s1);
    }
    let [mut a, mut b, mut c, mut d, mut e, mut f, mut g, mut h] = *state;
    for t in 0..64 {
        let s1 = e.rotate_right(6) ^ e.rotate_right(11) ^ e.rotate_right(25);
        let choose = (e & f) ^ (!e & g);
        let one = h.wrapping_add(s1).wrapping_add(choose);
        let one = one.wrapping_add(constants[t]).wrapping_add(w[t]);
        let s0 = a.rotate_right(2) ^ a.rotate_right(13) ^ a.rotate_right(22);
        let two = s0.wrapping_add((a & b) ^ (a & c) ^ (b & c));
        (h, g, f, e, d, c, b, a) = (g, f, e, d.wrapping_add(one), c, b, a, one.wrapping_add(two));
    }
    for (sum, part) in state.iter_mut().zip([a, b, c, d, e, f, g, h]) {
        *sum = sum.wrapping_add(part);
    }
}

/// The digest in lower-case hex.
pub fn sha256(bytes: &[u8]) -> String {
    let constants = round_constants();
    let mut state = first_state();
    for part in padded(bytes).chunks_exact(64) {
        block(&mut state, part, &constants);
    }
    state.iter().map(|word| format!("{word:08x}")).collect()
}
