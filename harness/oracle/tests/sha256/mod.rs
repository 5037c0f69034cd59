//! SHA-256 (FIPS 180-4), so that the sums need no other crate.

/// The sum in hexadecimal, as `sha256sum` prints it.
pub fn hex(bytes: &[u8]) -> String {
    let constants = constants();
    let mut state = start();
    let mut padded = bytes.to_vec();
    padded.push(0x80);
    while padded.len() % 64 != 56 {
        padded.push(0);
    }
    padded.extend((bytes.len() as u64 * 8).to_be_bytes());
    for block in padded.chunks(64) {
        absorb(&mut state, block, &constants);
    }
    state.iter().map(|word| format!("{word:08x}")).collect()
}

fn absorb(state: &mut [u32; 8], block: &[u8], constants: &[u32]) {
    let mut w: Vec<u32> = block
        .chunks(4)
        .map(|four| u32::from_be_bytes(four.try_into().expect("four bytes")))
        .collect();
    for i in 16..64 {
        let (p, q) = (w[i - 15], w[i - 2]);
        let s0 = p.rotate_right(7) ^ p.rotate_right(18) ^ (p >> 3);
        let s1 = q.rotate_right(17) ^ q.rotate_right(19) ^ (q >> 10);
        w.push(
            w[i - 16]
                .wrapping_add(s0)
                .wrapping_add(w[i - 7])
                .wrapping_add(s1),
        );
    }
    let [mut a, mut b, mut c, mut d, mut e, mut f, mut g, mut h] = *state;
    for i in 0..64 {
        let s1 = e.rotate_right(6) ^ e.rotate_right(11) ^ e.rotate_right(25);
        let choice = (e & f) ^ (!e & g);
        let t1 = h
            .wrapping_add(s1)
            .wrapping_add(choice)
            .wrapping_add(constants[i])
            .wrapping_add(w[i]);
        let s0 = a.rotate_right(2) ^ a.rotate_right(13) ^ a.rotate_right(22);
        let majority = (a & b) ^ (a & c) ^ (b & c);
        (h, g, f, e) = (g, f, e, d.wrapping_add(t1));
        (d, c, b, a) = (c, b, a, t1.wrapping_add(s0).wrapping_add(majority));
    }
    for (place, word) in state.iter_mut().zip([a, b, c, d, e, f, g, h]) {
        *place = place.wrapping_add(word);
    }
}

/// The first 32 bits behind the point of the square roots of the first eight primes.
fn start() -> [u32; 8] {
    let mut words = primes().map(|p| whole_root(p << 64, 2) as u32);
    [(); 8].map(|()| words.next().expect("endless"))
}

/// The same of the cube roots of the first sixty-four primes.
fn constants() -> Vec<u32> {
    primes()
        .take(64)
        .map(|p| whole_root(p << 96, 3) as u32)
        .collect()
}

fn primes() -> impl Iterator<Item = u128> {
    (2..).filter(|n: &u128| !(2..*n).any(|d| n.is_multiple_of(d)))
}

/// The largest whole number whose power is at most n.
fn whole_root(n: u128, power: u32) -> u128 {
    let mut root = 0u128;
    for bit in (0..40).rev() {
        let next = root | 1 << bit;
        if next.checked_pow(power).is_some_and(|p| p <= n) {
            root = next;
        }
    }
    root
}
