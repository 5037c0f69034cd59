//! The proved root beside the machine's: nanoseconds a root.
//!
//! Throughput takes the roots of a slice one by one, none waiting for the one
//! before. Latency makes each root wait for the one before. 'By twos' is
//! throughput of the proved entry that takes two roots together, still for one
//! root. The machine's root is timed as a call, as the proved one is, and
//! inlined, where the compiler may also take two at a time.

use crate::{ROUNDS, median, nanoseconds};
use oracle::cases::Random;
use std::hint::black_box;

const SLICE: usize = 4096;

#[inline(never)]
fn machine_call(a: f64) -> f64 {
    a.sqrt()
}

#[inline(always)]
fn machine_inlined(a: f64) -> f64 {
    a.sqrt()
}

#[inline(always)]
fn throughput(numbers: &[f64], root: impl Fn(f64) -> f64) -> u64 {
    let mut all = 0;
    for &a in numbers {
        all ^= root(a).to_bits();
    }
    all
}

/// The root of each number, two numbers a call: the first one's in one pass,
/// the second one's in the next.
fn by_twos(numbers: &[f64]) -> u64 {
    let mut all = 0;
    for (i, two) in numbers.chunks_exact(2).enumerate() {
        all ^= proved::sqrt_two(two[0], two[1], i as u32 & 1).to_bits();
    }
    all
}

/// The sign of a root is 0 here, which only the machine knows: the next
/// number waits for it and stays what it is.
#[inline(always)]
fn latency(numbers: &[f64], root: impl Fn(f64) -> f64) -> u64 {
    let mut last = 0.0f64;
    for &a in numbers {
        last = root(f64::from_bits(a.to_bits() | last.to_bits() >> 63));
    }
    last.to_bits()
}

/// Nanoseconds a root in one round of many passes over the slice.
fn round(numbers: &[f64], passes: usize, pass: impl Fn(&[f64]) -> u64) -> f64 {
    let time = nanoseconds(passes, || {
        black_box(pass(black_box(numbers)));
    });
    time / numbers.len() as f64
}

/// Times the three roots in turn, and prints them with their ratios.
fn compare(
    title: &str,
    numbers: &[f64],
    proved: impl Fn(&[f64]) -> u64,
    called: impl Fn(&[f64]) -> u64,
    inlined: impl Fn(&[f64]) -> u64,
) {
    assert_eq!(proved(numbers), called(numbers));
    assert_eq!(proved(numbers), inlined(numbers));
    let mut times = [const { Vec::new() }; 3];
    for _ in 0..ROUNDS {
        times[0].push(round(numbers, 100, &proved));
        times[1].push(round(numbers, 1000, &called));
        times[2].push(round(numbers, 1000, &inlined));
    }
    let [p, c, i] = times.map(median);
    println!(
        "{title:<11} {p:>8.2} {c:>14.2} {i:>17.2} {:>14.2} {:>16.2}",
        p / c,
        p / i
    );
}

pub fn run() {
    let random = &mut Random::new(8);
    let numbers: Vec<f64> = (0..SLICE).map(|_| random.sized(0, 2046)).collect();
    println!(
        "ns a root     proved  machine called  machine inlined  proved/called  proved/inlined"
    );
    compare(
        "throughput",
        &numbers,
        |list| throughput(list, proved::sqrt),
        |list| throughput(list, machine_call),
        |list| throughput(list, machine_inlined),
    );
    let mut times: Vec<f64> = (0..ROUNDS).map(|_| round(&numbers, 100, by_twos)).collect();
    let two = median(std::mem::take(&mut times));
    println!("by twos     {two:>8.2}");
    compare(
        "latency",
        &numbers,
        |list| latency(list, proved::sqrt),
        |list| latency(list, machine_call),
        |list| latency(list, machine_inlined),
    );
}
