//! log2 and exp by the definitions' lists of whole-number steps.

/// The significand of a positive finite pattern, its leading digit with it.
fn lead(bits: u32) -> u32 {
    if bits < 0x80_0000 {
        bits
    } else {
        0x80_0000 + bits % 0x80_0000
    }
}

/// The exponent's field; that of a subnormal counts as 1.
fn field(bits: u32) -> u32 {
    if bits < 0x80_0000 { 1 } else { bits >> 23 }
}

/// The first 21 binary digits of log2(wide / 2^31).
fn digits(wide: u64) -> u32 {
    let (mut y, mut found) = (wide, 0u64);
    for _ in 0..21 {
        let square = y * y;
        let digit = square >> 63;
        y = square >> (31 + digit);
        found = 2 * found + digit;
    }
    found as u32
}

/// n / 2^21, exactly, or cut to 24 digits by dropping five.
fn scaled(n: u32) -> f32 {
    if n < 0x100_0000 {
        n as f32 * (1.0 / 2097152.0)
    } else {
        (n >> 5) as f32 * (1.0 / 65536.0)
    }
}

/// log2 of the positive finite float with this pattern.
fn log2_bits(bits: u32) -> f32 {
    let lead = lead(bits);
    let zeros = lead.leading_zeros();
    let fraction = digits((lead << zeros) as u64);
    let exponent = field(bits) + 30 - zeros;
    if exponent >= 149 {
        scaled((exponent - 149) * 0x20_0000 + fraction)
    } else {
        -scaled((149 - exponent) * 0x20_0000 - fraction)
    }
}

pub fn log2(x: f32) -> f32 {
    if x.is_nan() || x == f32::INFINITY {
        x
    } else if x < 0.0 {
        f32::NAN
    } else if x == 0.0 {
        f32::NEG_INFINITY
    } else {
        log2_bits(x.to_bits())
    }
}

/// The magnitude of the pattern in units of 2^-30, rounded down.
fn fixed(bits: u32) -> u64 {
    let exponent = bits >> 23;
    let significand = (0x80_0000 + bits % 0x80_0000) as u64;
    match exponent {
        0..96 => 0,
        96..120 => significand >> (120 - exponent),
        _ => significand << (exponent - 120),
    }
}

/// e^u, both in units of 2^-30.
fn series(u: u64) -> u64 {
    let terms = [
        213044, 1491308, 8947848, 44739242, 178956970, 536870912, 1073741824, 1073741824,
    ];
    terms
        .iter()
        .fold(26630, |sum, term| term + ((u * sum) >> 30))
}

/// e^(a / 2^30)
fn exp_up(a: u64) -> f32 {
    let n = (a * 96817625) >> 56;
    let pattern = (n + 126) * 0x80_0000 + (series(a - n * 744261117) >> 7);
    if pattern < 0x7f80_0000 {
        f32::from_bits(pattern as u32)
    } else {
        f32::INFINITY
    }
}

/// e^(-a / 2^30)
fn exp_down(a: u64) -> f32 {
    if a == 0 {
        return 1.0;
    }
    let n = ((a * 96817626) >> 56) + 1;
    let sum = series(n * 744261117 - a);
    let pattern = if n < 127 {
        (126 - n) * 0x80_0000 + (sum >> 7)
    } else {
        sum >> (n - 119)
    };
    f32::from_bits(pattern as u32)
}

pub fn exp(x: f32) -> f32 {
    if x.is_nan() {
        x
    } else if x >= 89.0 {
        f32::INFINITY
    } else if x <= -104.0 {
        0.0
    } else if x.is_sign_positive() {
        exp_up(fixed(x.to_bits()))
    } else {
        exp_down(fixed(x.to_bits() - 0x8000_0000))
    }
}
