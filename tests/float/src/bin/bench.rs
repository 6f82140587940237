//! How long a call of sqrt, log2 and exp takes, ours against the machine's and Rust's own, in one run.
use std::hint::black_box;
use std::time::Instant;
use uramsheg::float as ours;

const VALUES: usize = 1 << 12;
const ROUNDS: usize = 200;

/// ns a call, the least of seven runs over the same values.
fn time(values: &[f32], f: impl Fn(f32) -> f32) -> f64 {
    (0..7)
        .map(|_| {
            let began = Instant::now();
            for _ in 0..ROUNDS {
                for &x in values {
                    black_box(f(black_box(x)));
                }
            }
            began.elapsed().as_nanos() as f64 / (ROUNDS * values.len()) as f64
        })
        .fold(f64::INFINITY, f64::min)
}

/// Values spread evenly over a range, in no order.
fn spread(low: f32, high: f32) -> Vec<f32> {
    let mut state = 0x9e37_79b9_7f4a_7c15_u64;
    (0..VALUES)
        .map(|_| {
            state = state.wrapping_mul(6364136223846793005).wrapping_add(1442695040888963407);
            low + (high - low) * ((state >> 40) as f32 / (1u64 << 24) as f32)
        })
        .collect()
}

fn main() {
    println!("| function | ours, ns a call | Rust's, ns a call | ratio |");
    println!("|---|---|---|---|");
    let row = |name: &str, values: Vec<f32>, ours: fn(f32) -> f32, theirs: fn(f32) -> f32| {
        let (a, b) = (time(&values, ours), time(&values, theirs));
        println!("| {name} | {a:.1} | {b:.1} | {:.1} |", a / b);
    };
    row("sqrt, 0 to 100", spread(0.0, 100.0), ours::sqrt, f32::sqrt);
    row("log2, 0.25 to 16", spread(0.25, 16.0), ours::log2, f32::log2);
    row("exp, -8 to 8", spread(-8.0, 8.0), ours::exp, f32::exp);
}
