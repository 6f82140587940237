//! What the published text leans on and does not bring: an image, a blur that hands over given levels, and names of later stages that never run.

/// A matrix by columns; as a base it holds four levels, one after another.
#[derive(Clone)]
pub struct GrayImage {
    rows: usize,
    cols: usize,
    pixels: Vec<f32>,
}

impl GrayImage {
    pub fn from_vec(rows: usize, cols: usize, pixels: Vec<f32>) -> Self {
        Self { rows, cols, pixels }
    }

    pub fn from_fn(rows: usize, cols: usize, value: impl Fn(usize, usize) -> f32) -> Self {
        let pixels = (0..rows * cols)
            .map(|at| value(at % rows, at / rows))
            .collect();
        Self { rows, cols, pixels }
    }

    pub fn zeros(rows: usize, cols: usize) -> Self {
        Self {
            rows,
            cols,
            pixels: vec![0.0; rows * cols],
        }
    }

    pub fn nrows(&self) -> usize {
        self.rows
    }

    pub fn ncols(&self) -> usize {
        self.cols
    }

    pub fn as_slice(&self) -> &[f32] {
        &self.pixels
    }
}

impl core::ops::Index<(usize, usize)> for GrayImage {
    type Output = f32;

    #[inline]
    fn index(&self, (row, col): (usize, usize)) -> &f32 {
        debug_assert!(row < self.rows && col < self.cols);
        &self.pixels[col * self.rows + row]
    }
}

/// The blur's names; a blurred column is the given level's column.
pub mod blur {
    pub const LEVELS: usize = 4;

    #[derive(Clone, Copy)]
    pub struct HalfKernel;

    pub fn octave_kernels(_octave: usize) -> [HalfKernel; LEVELS] {
        [HalfKernel; LEVELS]
    }

    /// `pixels` holds the four levels, one after another.
    #[derive(Clone, Copy)]
    pub struct BaseImage<'a> {
        pub pixels: &'a [f32],
        pub rows: usize,
        pub cols: usize,
    }

    pub struct ColumnBlur;

    impl ColumnBlur {
        pub fn new(_rows: usize) -> Self {
            Self
        }

        pub fn blur_column(
            &mut self,
            base: BaseImage<'_>,
            column: usize,
            kernels: &[HalfKernel; LEVELS],
            levels: [bool; LEVELS],
            out: &mut [Vec<f32>; LEVELS],
            offset: usize,
        ) {
            let mut used = levels.into_iter();
            let lines = out.each_mut().map(|line| {
                let used = used.next().unwrap_or(false);
                used.then(|| &mut line[offset..offset + base.rows])
            });
            self.blur_column_into(base, column, kernels, lines);
        }

        pub fn blur_column_into(
            &mut self,
            base: BaseImage<'_>,
            column: usize,
            _kernels: &[HalfKernel; LEVELS],
            out: [Option<&mut [f32]>; LEVELS],
        ) {
            for (level, line) in out.into_iter().enumerate() {
                if let Some(line) = line {
                    let start = (level * base.cols + column) * base.rows;
                    line.copy_from_slice(&base.pixels[start..start + base.rows]);
                }
            }
        }
    }
}

pub mod octave_dedup {
    use super::extraction::ScaleSpaceKeypoint;

    pub enum AdjacentOctavePreference {
        StrongestSignedResponse,
    }

    pub fn remove_adjacent_octave_duplicates_by<T>(
        _previous: &mut Vec<T>,
        _current: &mut Vec<T>,
        _preference: AdjacentOctavePreference,
        _geometry: impl Fn(&T) -> &ScaleSpaceKeypoint,
    ) {
        unreachable!()
    }
}

/// The published crate's `extraction` module.
pub mod extraction {
    #[derive(Clone, Copy, Debug)]
    pub struct ScaleSpaceKeypoint {
        pub x: f32,
        pub y: f32,
        pub sigma: f32,
        pub orientation: f32,
        pub peak: f32,
        pub octave: usize,
        pub scale_index: usize,
        pub is_max: bool,
    }

    pub mod convolution {
        use crate::shims::GrayImage;

        pub struct GaussianFilter;

        impl GaussianFilter {
            pub fn new(_sigma: f32) -> Self {
                Self
            }

            pub fn convolve_separable(&self, _image: &GrayImage) -> GrayImage {
                unreachable!()
            }
        }
    }

    pub mod feature_budget {
        pub trait FeatureBudget {
            fn is_unlimited(&self) -> bool;
        }

        pub struct FeatureCandidate;

        impl FeatureCandidate {
            pub fn new(_x: f32, _y: f32, _strength: f32) -> Self {
                Self
            }
        }

        pub fn selection_mask<B: FeatureBudget + ?Sized>(
            _pool: &[FeatureCandidate],
            _width: usize,
            _height: usize,
            _budget: &B,
        ) -> Vec<bool> {
            unreachable!()
        }
    }

    pub mod sift {
        pub mod canonical_descriptor {
            #[derive(Default)]
            pub struct CanonicalKernel;

            impl CanonicalKernel {
                pub fn describe(
                    &self,
                    _window: &LevelWindow,
                    _frame: &Frame,
                ) -> Option<[f32; 128]> {
                    unreachable!()
                }
            }

            #[derive(Clone, Copy)]
            pub struct Footprint {
                pub rows: (usize, usize),
                pub cols: (usize, usize),
            }

            pub struct Frame;

            impl Frame {
                pub fn new(_x: f32, _y: f32, _sigma: f32, _orientation: f32) -> Option<Self> {
                    unreachable!()
                }

                pub fn footprint(&self, _rows: usize, _cols: usize) -> Option<Footprint> {
                    unreachable!()
                }
            }

            pub struct LevelWindow;

            impl LevelWindow {
                pub fn new(
                    _window: &[f32],
                    _footprint: Footprint,
                    _rows: usize,
                    _cols: usize,
                ) -> Self {
                    unreachable!()
                }
            }

            pub fn support_columns(_x: f32, _sigma: f32, _cols: usize) -> Option<(usize, usize)> {
                unreachable!()
            }
        }

        pub mod common {
            pub const SIFT_DESCR_SIZE: usize = 128;
            pub const ORI_HIST_BINS: usize = 36;
            pub const ORI_SCALE: f32 = 1.5;
            pub const ORI_SMOOTH_PASSES: usize = 6;
            pub const TWO_PI: f32 = 2.0 * core::f32::consts::PI;

            pub fn fast_atan2(_y: f32, _x: f32) -> f32 {
                unreachable!()
            }

            pub fn smooth_orientation_histogram(
                _histogram: &mut [f32; ORI_HIST_BINS],
                _passes: usize,
            ) {
                unreachable!()
            }

            pub fn dominant_orientation(_histogram: &[f32; ORI_HIST_BINS]) -> Option<f32> {
                unreachable!()
            }
        }
    }
}

/// log2 and exp, by the definitions' steps or Rust's own, as the caller chose.
pub mod math_compat {
    use crate::Logs;
    use core::cell::Cell;

    thread_local! {
        static LOGS: Cell<Logs> = const { Cell::new(Logs::Rust) };
    }

    /// Chooses, and gives the choice before.
    pub fn choose(logs: Logs) -> Logs {
        LOGS.replace(logs)
    }

    pub fn log2f(x: f32) -> f32 {
        match LOGS.get() {
            Logs::Steps => crate::steps::log2(x),
            Logs::Rust => x.log2(),
        }
    }

    pub fn expf(x: f32) -> f32 {
        match LOGS.get() {
            Logs::Steps => crate::steps::exp(x),
            Logs::Rust => x.exp(),
        }
    }
}
