//! Walks every f32 pattern: sqrt against the machine's own root, log2 and exp against an independent f64 and document 01's ranges, nearest against f64.
//! `walk N` takes only every N-th pattern. It prints the worst value of each function and where.
use uramsheg::float as ours;
use uramsheg_float_tests::same;

/// The largest error seen so far, in units of 2^-20, and the pattern it was seen at.
#[derive(Clone, Copy, Default)]
struct Worst {
    error: f64,
    at: u32,
}

impl Worst {
    fn see(&mut self, error: f64, at: u32) {
        if error > self.error {
            *self = Worst { error, at };
        }
    }

    fn tell(&self, what: &str) {
        println!("{what}: worst 2^{:.3} at {:e} ({:08x})", (self.error / (1 << 20) as f64).log2(), f32::from_bits(self.at), self.at);
    }
}

#[derive(Clone, Default)]
struct Seen {
    log2: Worst,
    exp: Worst,
    /// The first wrong pattern of each claim.
    wrong: [Option<u32>; CLAIMS.len()],
}

const CLAIMS: [&str; 8] = [
    "sqrt equals the machine's root at every pattern",
    "log2 at NaN, below 0, at the zeros and at infinity",
    "log2 exact on powers of two, from e to e+1 between them",
    "log2 on 0.25 to 16 within 2^-20",
    "exp at NaN, at the zeros, from 89 on and to -104",
    "exp never negative, NaN only at NaN",
    "exp on -8 to 8 within one part in 2^20",
    "nearest equals the f64 x + 0.5 rounded down, 0 for NaN, at every pattern",
];

/// The exponent e with 2^e <= x < 2^(e+1), for a positive finite x.
fn exponent(x: f32) -> i32 {
    let bits = (x as f64).to_bits();
    (bits >> 52) as i32 - 1023
}

fn log2_in_range(x: f32, r: f32) -> bool {
    let e = exponent(x) as f32;
    let power = (x as f64).to_bits() << 12 == 0;
    if power { r == e } else { e <= r && r <= e + 1.0 }
}

fn log2_special(x: f32, r: f32) -> bool {
    if x.is_nan() || x < 0.0 {
        r.is_nan()
    } else if x == 0.0 {
        r == f32::NEG_INFINITY
    } else {
        x != f32::INFINITY || r == x
    }
}

fn exp_special(x: f32, r: f32) -> bool {
    if x.is_nan() {
        r.is_nan()
    } else if x == 0.0 {
        r == 1.0
    } else if x >= 89.0 {
        r == f32::INFINITY
    } else {
        x > -104.0 || r.to_bits() == 0
    }
}

/// The f64 sum is exact from 2^-30 to 2^51 in size; a smaller x leaves it next to 0.5, and a larger one is beyond u32 by itself. The cast keeps to u32.
fn nearest(x: f32) -> u32 {
    (x as f64 + 0.5).floor() as u32
}

fn look(pattern: u32, seen: &mut Seen) {
    let x = f32::from_bits(pattern);
    let mut claim = |index: usize, holds: bool| {
        if !holds && seen.wrong[index].is_none() {
            seen.wrong[index] = Some(pattern);
        }
    };
    claim(0, same(ours::sqrt(x), x.sqrt()));
    let log2 = ours::log2(x);
    claim(1, log2_special(x, log2));
    if x > 0.0 && x.is_finite() {
        claim(2, log2_in_range(x, log2));
    }
    let exp = ours::exp(x);
    claim(4, exp_special(x, exp));
    claim(5, if x.is_nan() { exp.is_nan() } else { !exp.is_nan() && exp.is_sign_positive() });
    claim(7, ours::nearest(x) == nearest(x));
    if (0.25..=16.0).contains(&x) {
        let error = (log2 as f64 - (x as f64).log2()).abs() * (1 << 20) as f64;
        claim(3, error <= 1.0);
        seen.log2.see(error, pattern);
    }
    if (-8.0..=8.0).contains(&x) {
        let want = (x as f64).exp();
        let error = (exp as f64 - want).abs() / want * (1 << 20) as f64;
        if error.is_nan() || error > 1.0 {
            seen.wrong[6].get_or_insert(pattern);
        }
        seen.exp.see(error, pattern);
    }
}

/// One thread's part: patterns start, start + step, ..
fn part(start: u64, step: u64) -> Seen {
    let mut seen = Seen::default();
    let mut pattern = start;
    while pattern <= u32::MAX as u64 {
        look(pattern as u32, &mut seen);
        pattern += step;
    }
    seen
}

fn main() {
    let every: u64 = std::env::args().nth(1).map_or(1, |word| word.parse().expect("walk N: N is a whole number"));
    let threads = std::thread::available_parallelism().map_or(1, |n| n.get() as u64);
    let parts: Vec<Seen> = std::thread::scope(|scope| {
        let running: Vec<_> = (0..threads).map(|k| scope.spawn(move || part(k * every, threads * every))).collect();
        running.into_iter().map(|thread| thread.join().expect("a thread of the walk stopped")).collect()
    });
    let mut all = Seen::default();
    for seen in &parts {
        all.log2.see(seen.log2.error, seen.log2.at);
        all.exp.see(seen.exp.error, seen.exp.at);
        for (whole, &wrong) in all.wrong.iter_mut().zip(&seen.wrong) {
            *whole = whole.or(wrong);
        }
    }
    println!("walked every pattern in {every}: {} patterns", (1u64 << 32).div_ceil(every));
    all.log2.tell("log2 on 0.25 to 16, against f64");
    all.exp.tell("exp on -8 to 8, relative, against f64");
    for (claim, wrong) in CLAIMS.iter().zip(&all.wrong) {
        match wrong {
            None => println!("ok walk {claim}"),
            Some(at) => println!("FAILED walk {claim}: at {at:08x}"),
        }
    }
    std::process::exit(all.wrong.iter().any(Option::is_some) as i32);
}
