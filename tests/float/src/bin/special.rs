//! Calls each float helper from Rust at its special values, all pairs of them where it takes two.
use uramsheg::float as ours;
use uramsheg_float_tests::same;

/// Zeros, the ends of the subnormals and normals, ones, infinities and NaNs of both signs.
fn special() -> Vec<f32> {
    let magnitudes = [
        0, 1, 2, 0x007f_ffff, 0x0080_0000, 0x2edb_e6ff, 0x3f19_999a, 0x3f7f_ffff, 0x3f80_0000, 0x3f80_0001, 0x4000_0000, 0x42b1_ffff, 0x42b2_0000, 0x42cf_ffff,
        0x42d0_0000, 0x7f7f_ffff, 0x7f80_0000, 0x7f80_0001, 0x7fc0_0000, 0x7fff_ffff_u32,
    ];
    magnitudes.iter().flat_map(|&m| [f32::from_bits(m), f32::from_bits(m | 0x8000_0000)]).collect()
}

/// One NaN is ignored; of two equal numbers the left is given.
fn larger(a: f32, b: f32) -> f32 {
    if a.is_nan() || a < b { b } else { a }
}

fn smaller(a: f32, b: f32) -> f32 {
    if a.is_nan() || b < a { b } else { a }
}

/// Low for a value below low, then high for one above high.
fn clamped(x: f32, low: f32, high: f32) -> f32 {
    if x < low {
        low
    } else if x > high {
        high
    } else {
        x
    }
}

fn tell(name: &str, wrong: Option<String>) -> bool {
    match &wrong {
        None => println!("ok Rust {name}"),
        Some(at) => println!("FAILED Rust {name}: {at}"),
    }
    wrong.is_some()
}

fn one(name: &str, ours: impl Fn(f32) -> f32, want: impl Fn(f32) -> f32) -> bool {
    let wrong = special().into_iter().find(|&x| !same(ours(x), want(x)));
    tell(name, wrong.map(|x| format!("at {:08x} got {:08x}, want {:08x}", x.to_bits(), ours(x).to_bits(), want(x).to_bits())))
}

fn two(name: &str, ours: impl Fn(f32, f32) -> f32, want: impl Fn(f32, f32) -> f32) -> bool {
    let pairs = special().into_iter().flat_map(|a| special().into_iter().map(move |b| (a, b)));
    let wrong = pairs.into_iter().find(|&(a, b)| !same(ours(a, b), want(a, b)));
    tell(name, wrong.map(|(a, b)| format!("at {:08x} {:08x} got {:08x}, want {:08x}", a.to_bits(), b.to_bits(), ours(a, b).to_bits(), want(a, b).to_bits())))
}

/// The document's special values of log2; elsewhere the answer itself, which the walk looks at.
fn log2_special(x: f32) -> f32 {
    if x.is_nan() || x < 0.0 {
        f32::NAN
    } else if x == 0.0 {
        f32::NEG_INFINITY
    } else if x == f32::INFINITY {
        x
    } else {
        ours::log2(x)
    }
}

/// The document's special values of exp; elsewhere the answer itself.
fn exp_special(x: f32) -> f32 {
    if x.is_nan() {
        f32::NAN
    } else if x == 0.0 {
        1.0
    } else if x >= 89.0 {
        f32::INFINITY
    } else if x <= -104.0 {
        0.0
    } else {
        ours::exp(x)
    }
}

/// The whole n with 2n - 1 <= 2x < 2n + 1, from 0 to u32's end: by the cast, which drops the fraction, and what is left.
fn nearest_special(x: f32) -> u32 {
    let whole = x as u32;
    whole.saturating_add((x as f64 - whole as f64 >= 0.5) as u32)
}

fn nearest() -> bool {
    let halves = (0..=32).flat_map(|power| [0.0, 0.5, 1.5, 2.5].map(|more| (1u64 << power) as f32 + more)).chain([0.5, 1.5, 4.5]);
    let places = halves.flat_map(|half| [half, half.next_down(), half.next_up()]).chain(special());
    let wrong = places.into_iter().find(|&x| ours::nearest(x) != nearest_special(x));
    tell("nearest", wrong.map(|x| format!("at {:08x} got {}, want {}", x.to_bits(), ours::nearest(x), nearest_special(x))))
}

fn main() {
    let mut wrong = false;
    wrong |= one("abs", ours::abs, f32::abs);
    wrong |= one("is_finite", |x| ours::is_finite(x) as u8 as f32, |x| x.is_finite() as u8 as f32);
    wrong |= one("sqrt", ours::sqrt, f32::sqrt);
    wrong |= one("log2", ours::log2, log2_special);
    wrong |= one("exp", ours::exp, exp_special);
    wrong |= two("min", ours::min, smaller);
    wrong |= two("max", ours::max, larger);
    for x in special() {
        let name = format!("clamp of {:08x}", x.to_bits());
        wrong |= two(&name, |low, high| ours::clamp(x, low, high), |low, high| clamped(x, low, high));
    }
    wrong |= nearest();
    wrong |= tell("nearest 4.5 is 5", (ours::nearest(4.5) != 5).then(String::new));
    wrong |= tell("nearest of the float below 0.5 is 0", (ours::nearest(f32::from_bits(0x3eff_ffff)) != 0).then(String::new));
    wrong |= tell("sqrt 2.25 is 1.5", (ours::sqrt(2.25) != 1.5).then(String::new));
    wrong |= tell("log2 8 is 3", (ours::log2(8.0) != 3.0).then(String::new));
    wrong |= tell("log2 2^-149 is -149", (ours::log2(f32::from_bits(1)) != -149.0).then(String::new));
    std::process::exit(wrong as i32);
}
