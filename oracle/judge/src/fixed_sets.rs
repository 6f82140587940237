//! The few sets that stand as real constants in the build of the text as published.

/// What the published text names as constants and does not show, in the order of its record.
#[derive(Clone)]
pub struct Set {
    pub sigmas: [f32; 4],
    pub scale: [f32; 12],
    pub geometry: [f32; 12],
    pub spatial: [f32; 90],
    pub numbers: [f32; 11],
    pub order: [u8; 9],
}

pub const NAMES: [&str; 5] = [
    "t",
    "half_octaves",
    "weighted",
    "degenerate",
    "repeated_order",
];

pub fn by_index(index: usize) -> Set {
    match index {
        0 => set_t(),
        1 => half_octaves(),
        2 => weighted(),
        3 => degenerate(),
        _ => repeated_order(),
    }
}

/// Set T of document 01.
pub fn set_t() -> Set {
    let cubic = [0.0, 0.0, 0.0, 1.0, 0.0, 0.0, 0.0, 1.0, 0.0, 0.0, 0.0, 1.0];
    let mut spatial = [0.0; 90];
    for block in spatial.chunks_exact_mut(45) {
        block[3] = 1.0;
        block[9 + 5] = 1.0;
        block[3 * 9 + 4] = 0.25;
    }
    Set {
        sigmas: [1.0, 2.0, 3.0, 4.0],
        scale: cubic,
        geometry: cubic,
        spatial,
        numbers: [1.0, 0.5, -4.0, 4.0, 0.5, 16.0, 0.5, 1.0, 0.125, 0.5, 1.0],
        order: [0, 1, 2, 3, 4, 5, 6, 7, 8],
    }
}

/// Rows a, b, c, d of the cubic through four nodes, for the first three samples, the fourth one's share being implied.
fn cubic_through(nodes: [f64; 4]) -> [f32; 12] {
    let mut rows = [0.0; 12];
    for column in 0..3 {
        let others: Vec<f64> = (0..4).filter(|&k| k != column).map(|k| nodes[k]).collect();
        let (p, q, r) = (others[0], others[1], others[2]);
        let scale = (nodes[column] - p) * (nodes[column] - q) * (nodes[column] - r);
        for (row, value) in [1.0, -(p + q + r), p * q + p * r + q * r, -p * q * r]
            .iter()
            .enumerate()
        {
            rows[row * 3 + column] = (value / scale) as f32;
        }
    }
    rows
}

/// Rows w1 to w5 of a quadratic fit on the three by three samples, a middle row or column weighing `middle`.
fn quadratic(middle: f64, order: [u8; 9]) -> [f32; 45] {
    let weight = |k: i32| if k == 0 { middle } else { 1.0 } / (2.0 + middle);
    let second = |k: i32| if k == 0 { -1.0 } else { 0.5 };
    let mut rows = [0.0; 45];
    for (column, &sample) in order.iter().enumerate() {
        let (y, x) = (sample as i32 / 3 - 1, sample as i32 % 3 - 1);
        let values = [
            second(x) * weight(y),
            second(y) * weight(x),
            0.25 * (x * y) as f64,
            0.5 * x as f64 * weight(y),
            0.5 * y as f64 * weight(x),
        ];
        for (row, value) in values.iter().enumerate() {
            rows[row * 9 + column] = *value as f32;
        }
    }
    rows
}

/// The spatial entries for scale index 1, then 2.
fn both(first: [f32; 45], second: [f32; 45]) -> [f32; 90] {
    core::array::from_fn(|k| if k < 45 { first[k] } else { second[k - 45] })
}

/// Sigmas 1.6 * 2^(k/2) and the cubics through them.
fn half_octaves() -> Set {
    let sigmas: [f64; 4] = core::array::from_fn(|k| 1.6 * 2f64.powf(k as f64 / 2.0));
    let order = [0, 1, 2, 3, 4, 5, 6, 7, 8];
    Set {
        sigmas: sigmas.map(|sigma| sigma as f32),
        scale: cubic_through(sigmas),
        geometry: cubic_through([0.0, 0.5, 1.0, 1.5]),
        spatial: both(quadratic(1.0, order), quadratic(1.0, order)),
        numbers: [
            1.6, 1e-6, -0.25, 1.75, 1.4, 5.5, 0.6, 1.0, 0.001, 0.02, 0.025,
        ],
        order,
    }
}

/// Sigmas near those, another order of samples and a fit that leans on the middle.
fn weighted() -> Set {
    let sigmas = [1.59, 2.271, 3.187, 4.533];
    let order = [4, 1, 3, 5, 7, 0, 2, 6, 8];
    Set {
        sigmas: sigmas.map(|sigma| sigma as f32),
        scale: cubic_through(sigmas),
        geometry: cubic_through(sigmas.map(|sigma: f64| (sigma / 1.7).log2())),
        spatial: both(quadratic(2.0, order), quadratic(3.0, order)),
        numbers: [
            1.7, 0.001, -0.5, 2.0, 1.2, 6.5, 0.35, 0.95, 0.0005, 0.05, 0.4,
        ],
        order,
    }
}

/// A sigma whose square is subnormal, two that are neighbours, equal blends, no compatibility range, a cap of -0.
fn degenerate() -> Set {
    let mut set = set_t();
    set.sigmas = [1e-20, 1.5, 2.5, 2.5000002];
    set.scale = [
        1e-9, 0.0, 0.0, 1.0, -0.5, 0.0, 0.0, 1.0, 0.0, 0.0, 1e-38, 0.0,
    ];
    set.geometry = [
        0.0, 0.0, 0.0, 1e-30, 0.0, 0.0, 0.0, -1.0, 1e30, 0.0, 0.0, 1.0,
    ];
    for block in set.spatial.chunks_exact_mut(45) {
        block[2 * 9..3 * 9].fill(-0.0);
        block[9 + 5] = 1e-5;
    }
    set.numbers = [
        1.0, -0.25, -4.0, 4.0, 0.0, 16.0, 0.5, 0.5, -0.0, 1e-45, -0.0,
    ];
    set
}

/// The half octaves with an order that names some samples twice and others not at all.
fn repeated_order() -> Set {
    let mut set = half_octaves();
    set.order = [0, 1, 2, 3, 4, 5, 5, 7, 4];
    set.spatial[7] = 0.375;
    set
}
