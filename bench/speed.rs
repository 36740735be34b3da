// Nanoseconds for each operation of both arithmetics, and for a judgement, over loops that the library exports.
use std::time::Instant;

unsafe extern "C" {
    fn binary_products(turns: u64) -> u64;
    fn decimal_products(turns: u64) -> u64;
    fn binary_sums(turns: u64) -> u64;
    fn decimal_sums(turns: u64) -> u64;
    fn binary_choices(turns: u64) -> u64;
    fn decimal_choices(turns: u64) -> u64;
    fn binary_wholes(turns: u64) -> u64;
    fn decimal_wholes(turns: u64) -> u64;
    fn binary_judgements(turns: u64) -> u64;
    fn decimal_judgements(turns: u64) -> u64;
}

type Loop = unsafe extern "C" fn(u64) -> u64;

fn time(name: &str, turns: u64, operations: u64, run: Loop) {
    let start = Instant::now();
    let seen = unsafe { run(turns) };
    let nanoseconds = start.elapsed().as_nanos() as f64 / (turns * operations) as f64;
    println!("{name:32} {nanoseconds:6.1} ns   ({seen})");
}

fn main() {
    time("binary product and quotient", 2_000_000, 2, binary_products);
    time("decimal product and quotient", 2_000_000, 2, decimal_products);
    time("binary sum and excess", 2_000_000, 2, binary_sums);
    time("decimal sum and excess", 2_000_000, 2, decimal_sums);
    time("binary larger and smaller", 2_000_000, 2, binary_choices);
    time("decimal larger and smaller", 2_000_000, 2, decimal_choices);
    time("binary whole and larger", 1_000_000, 8, binary_wholes);
    time("decimal whole and larger", 1_000_000, 8, decimal_wholes);
    time("binary judgement", 100_000, 1, binary_judgements);
    time("decimal judgement", 100_000, 1, decimal_judgements);
}
