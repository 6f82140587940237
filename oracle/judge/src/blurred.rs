//! What one build of the published blur offers: its kernels, and levels of a raw map by columns.

use super::column_blur::{BaseImage, ColumnBlur, HalfKernel, LEVELS, octave_kernels};

/// A kernel's radius, and every tap that there is room for.
#[derive(Clone, Debug)]
pub struct Kernel {
    pub radius: usize,
    pub taps: Vec<f32>,
}

impl From<HalfKernel> for Kernel {
    fn from(kernel: HalfKernel) -> Kernel {
        Kernel {
            radius: kernel.radius,
            taps: kernel.taps.to_vec(),
        }
    }
}

pub fn gaussian(sigma: f32) -> Kernel {
    HalfKernel::gaussian(sigma).into()
}

pub fn kernels(octave: usize) -> [Kernel; LEVELS] {
    octave_kernels(octave).map(Kernel::from)
}

/// The chosen levels of an octave, each in its vector's first rows * cols floats; the others are kept.
pub fn levels(
    base: (usize, usize, &[f32]),
    octave: usize,
    chosen: [bool; LEVELS],
    out: &mut [Vec<f32>; LEVELS],
) {
    through(base, &octave_kernels(octave), chosen, out);
}

/// One level by a kernel given. It goes the way of a single chosen level: the way of all four asks for radii that never fall.
pub fn level(base: (usize, usize, &[f32]), kernel: &Kernel) -> Vec<f32> {
    let given = HalfKernel {
        radius: kernel.radius,
        taps: core::array::from_fn(|tap| kernel.taps[tap]),
    };
    let mut out: [Vec<f32>; LEVELS] = Default::default();
    out[0] = vec![0.0; base.0 * base.1];
    through(base, &[given; LEVELS], [true, false, false, false], &mut out);
    let [made, ..] = out;
    made
}

fn through(
    (rows, cols, pixels): (usize, usize, &[f32]),
    kernels: &[HalfKernel; LEVELS],
    chosen: [bool; LEVELS],
    out: &mut [Vec<f32>; LEVELS],
) {
    let base = BaseImage { pixels, rows, cols };
    let mut lines = ColumnBlur::new(rows);
    for column in 0..cols {
        lines.blur_column(base, column, kernels, chosen, out, rows * column);
    }
}
