//! The maps that detection is timed on: four levels each, by columns.

/// Four levels by columns.
pub type Levels = [Vec<f32>; 4];

/// A small generator of evenly spread numbers.
struct Spread(u64);

impl Spread {
    fn next(&mut self) -> f32 {
        self.0 = self.0.wrapping_mul(6364136223846793005).wrapping_add(1442695040888963407);
        (self.0 >> 40) as f32 / (1u64 << 24) as f32
    }

    fn between(&mut self, low: f32, high: f32) -> f32 {
        low + (high - low) * self.next()
    }
}

/// A blob in every patch of 24 by 24 pixels, each level blurring it as its sigma would, and noise over all, another in each level.
pub fn blobs(side: usize, sigmas: [f32; 4]) -> Levels {
    let mut spread = Spread(7);
    let patches = side.div_ceil(24);
    let blobs: Vec<(f32, f32, f32, f32)> = (0..patches * patches)
        .map(|_| {
            let sign = if spread.next() < 0.5 { -1.0 } else { 1.0 };
            (8.0 + 8.0 * spread.next(), 8.0 + 8.0 * spread.next(), 1.5 + 2.0 * spread.next(), sign * (0.3 + spread.next()))
        })
        .collect();
    sigmas.map(|sigma| {
        let mut level = vec![0.0f32; side * side];
        for col in 0..side {
            for row in 0..side {
                let (y, x, size, height) = blobs[row / 24 * patches + col / 24];
                let (dy, dx) = ((row % 24) as f32 - y, (col % 24) as f32 - x);
                let wide = size * size + sigma * sigma;
                let blob = height * size * size / wide * (-(dy * dy + dx * dx) / (2.0 * wide)).exp();
                level[col * side + row] = blob + 0.002 * (spread.next() - 0.5) / sigma;
            }
        }
        level
    })
}

/// A square map of the side `part` over and over, on one of the side `side`.
pub fn repeated(levels: &Levels, part: usize, side: usize) -> Levels {
    levels.each_ref().map(|level| {
        let mut whole = Vec::with_capacity(side * side);
        for col in 0..side {
            let column = &level[col % part * part..][..part];
            (0..side).step_by(part).for_each(|row| whole.extend_from_slice(&column[..part.min(side - row)]));
        }
        whole
    })
}

/// Every pixel times a factor.
pub fn scaled(levels: &Levels, factor: f32) -> Levels {
    levels.each_ref().map(|level| level.iter().map(|pixel| pixel * factor).collect())
}

/// One pixel in a hundred lost, each at one level.
pub fn lost(levels: &Levels) -> Levels {
    let (mut spread, mut levels) = (Spread(11), levels.clone());
    for place in 0..levels[0].len() {
        if spread.next() < 0.01 {
            levels[(4.0 * spread.next()) as usize][place] = f32::NAN;
        }
    }
    levels
}

/// Numbers between -1 and 1 on a lattice of pixels `step` apart, straight lines in between.
fn lattice(spread: &mut Spread, side: usize, step: usize) -> Vec<f32> {
    let knots = side / step + 2;
    let knot: Vec<f32> = (0..knots * knots).map(|_| spread.between(-1.0, 1.0)).collect();
    let mix = |from: f32, to: f32, part: usize| from + (to - from) * part as f32 / step as f32;
    let pixel = |place: usize| {
        let (row, col) = (place % side, place / side);
        let at = |down: usize, right: usize| knot[(col / step + right) * knots + row / step + down];
        mix(mix(at(0, 0), at(1, 0), row % step), mix(at(0, 1), at(1, 1), row % step), col % step)
    };
    (0..side * side).map(pixel).collect()
}

/// A raw map as a real one looks: noise of every size up to 32 pixels, the broader the taller, and in each patch of 128 by 128 pixels a plume that a source
/// feeds, drawn out down the wind: it widens and thins with the distance.
pub fn plumes(side: usize) -> Vec<f32> {
    let mut spread = Spread(13);
    let mut raw = vec![0.0f32; side * side];
    for step in [1usize, 2, 4, 8, 16, 32] {
        let height = 0.01 * (step as f32).sqrt();
        raw.iter_mut().zip(lattice(&mut spread, side, step)).for_each(|(pixel, noise)| *pixel += height * noise);
    }
    let patches = side.div_ceil(128);
    for patch in 0..patches * patches {
        let (top, left) = ((patch % patches * 128) as f32, (patch / patches * 128) as f32);
        let (y, x) = (top + spread.between(16.0, 112.0), left + spread.between(8.0, 48.0));
        let (height, wind) = (spread.between(0.5, 2.0), spread.between(-0.3, 0.3));
        for down in 0..96 {
            let far = down as f32;
            let (wide, centre) = (1.5 + 0.12 * far, y + wind * far);
            let thick = height * (-far / 40.0).exp() * 1.5 / wide;
            let (col, first) = ((x + far) as usize, (centre - 3.0 * wide).max(0.0) as usize);
            for row in first..((centre + 3.0 * wide) as usize).min(side) {
                let off = (row as f32 - centre) / wide;
                if col < side {
                    raw[col * side + row] += thick * (-off * off / 2.0).exp();
                }
            }
        }
    }
    raw
}
