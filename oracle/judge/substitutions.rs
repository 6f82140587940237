//! What the build with a set read at run time replaces in the published text.

/// One replacement.
pub enum Substitution {
    /// The text at a place of the published file becomes new text; both are written as in breaks.txt.
    At(&'static str, &'static str),
    /// A whole identifier becomes another text, so many times.
    Word(&'static str, &'static str, usize),
    /// A method's call becomes another's, so many times.
    Call(&'static str, &'static str, usize),
}
use Substitution::{At, Call, Word};

/// What the published text's own `use` of the tables gives way to.
const NAMES: &str = "use crate::admission::admits;\nuse crate::causes::{self, no_size, no_statistic};\nuse crate::counting::{self, let_pass, said};\nuse crate::here::{ByRules as _, SumByRules as _, here};\nuse crate::moves;\n";

pub const SCALE_FIT: &[Substitution] = &[
    // The set's names.
    At("39.1+405 3b49c0f675c2", ""),
    At("45.1+94 3d08e8e03318", NAMES),
    Word("SIGMAS", "here().sigmas", 13),
    Word("ALP_SCALE_CUBIC_BASE", "here().scale", 1),
    Word("ALP_SPATIAL_QUADRATIC_BASE", "here().spatial", 1),
    Word("Q_SAMPLE_ORDER", "here().order", 1),
    Word("ALP_GEOMETRY_SCALE_CUBIC_LOG2", "here().geometry", 1),
    Word(
        "ALP_GEOMETRY_LOG_SIGMA_ORIGIN",
        "here().log_sigma_origin",
        3,
    ),
    Word(
        "ALP_GEOMETRY_CURVATURE_EPSILON",
        "here().curvature_epsilon",
        4,
    ),
    Word("ALP_GEOMETRY_FIT_T_MIN", "here().fit_t_min", 2),
    Word("ALP_GEOMETRY_FIT_T_MAX", "here().fit_t_max", 2),
    Word(
        "ALP_GEOMETRY_ACCEPT_SIGMA_MIN",
        "here().accept_sigma_min",
        2,
    ),
    Word(
        "ALP_GEOMETRY_ACCEPT_SIGMA_MAX",
        "here().accept_sigma_max",
        2,
    ),
    Word("ALP_GEOMETRY_BLEND_BETA", "here().blend_beta", 6),
    Word("ALP_GEOMETRY_BLEND_BOOST", "here().blend_boost", 4),
    Word(
        "ALP_GEOMETRY_COMPATIBILITY_LOWER",
        "here().compatibility_lower",
        1,
    ),
    Word(
        "ALP_GEOMETRY_COMPATIBILITY_UPPER",
        "here().compatibility_upper",
        1,
    ),
    Word(
        "ALP_GEOMETRY_FINAL_MOVE_CAP_LOG2",
        "here().final_move_cap_log2",
        2,
    ),
    // Constants worked out from the set become functions: the head, and the statement's end.
    At("228.1+27 fb96e47d9974", "fn profile_x() -> [f32; 4] {"),
    At("233.2+1 3b43ad880379", " }"),
    At("234.1+27 c3ed4885f9a0", "fn profile_mean_x() -> f32 {"),
    At("234.59+1 c61f5fdc1987", " }"),
    At("235.1+28 c03aa0691385", "fn profile_dx() -> [f32; 4] {"),
    At("240.2+1 3b43ad880379", " }"),
    At("241.1+29 95817a38b681", "fn profile_x_energy() -> f32 {"),
    At("246.3+1 6b383b1df9b9", " }"),
    Word("PROFILE_X", "profile_x()", 6),
    Word("PROFILE_MEAN_X", "profile_mean_x()", 5),
    Word("PROFILE_DX", "profile_dx()", 10),
    Word("PROFILE_X_ENERGY", "profile_x_energy()", 1),
    // Document 01's named differences.
    Call(".max(", ".max_here(", 8),
    Call(".min(", ".min_here(", 4),
    Call(".clamp(", ".clamp_here(", 3),
    Call(".sum()", ".sum_here()", 1),
    // A sample that no order byte of a good set names is NaN.
    At("77.76+7 01daa173364a", "crate::here::Named(`old`)"),
    // Two functions shown to the rest of the crate.
    At("217.1+2 8df8623b6a7c", "pub(super) `old`"),
    At("338.1+2 5e52e0a61703", "pub(super) `old`"),
    // Why there is no statistic, and why there is no size.
    At("253.16+4 1a5cdbac9b27", "no_statistic(causes::SAMPLES)"),
    At("260.16+4 1a5cdbac9b27", "no_statistic(causes::QUOTIENTS)"),
    At("264.16+4 1a5cdbac9b27", "no_statistic(causes::ROOTS)"),
    At(
        "268.16+4 1a5cdbac9b27",
        "no_statistic(causes::LARGEST_ROOT)",
    ),
    At(
        "272.16+4 1a5cdbac9b27",
        "no_statistic(causes::SCALED_ROOTS)",
    ),
    At("285.16+4 1a5cdbac9b27", "no_statistic(causes::LINE)"),
    At("291.16+4 1a5cdbac9b27", "no_statistic(causes::ENERGIES)"),
    At(
        "297.9+4 f69d62a8f47b",
        "no_statistic(causes::LAST_QUOTIENT)",
    ),
    At("399.16+4 1a5cdbac9b27", "no_size(causes::POLARITY)"),
    At("415.16+4 1a5cdbac9b27", "no_size(causes::RANGE)"),
    // Why a candidate is rejected.
    At("487.8+16 c5bebd62093d", "said(counting::HESSIAN, `old`)"),
    At("488.12+16 cf6c6b454ebd", "said(counting::HESSIAN, `old`)"),
    At("489.12+16 0fb5a8f03963", "said(counting::HESSIAN, `old`)"),
    At("490.12+17 d0d2b94074a5", "said(counting::HESSIAN, `old`)"),
    At("491.12+18 3a3cc1a5efdb", "said(counting::HESSIAN, `old`)"),
    At(
        "492.12+13 f819688d98bb",
        "said(counting::DETERMINANT, `old`)",
    ),
    At(
        "493.12+17 b08046c25215",
        "said(counting::TRACE_SIGN, `old`)",
    ),
    At(
        "499.8+18 89dde4179124",
        "said(counting::RATIO_NOT_FINITE, `old`)",
    ),
    At(
        "499.30+25 fddeb67518fc",
        "said(counting::RATIO_ABOVE, `old`)",
    ),
    At("508.8+15 7e0331d9a1ad", "said(counting::FIT, `old`)"),
    At("509.12+15 c7fb01366c3b", "said(counting::FIT, `old`)"),
    At("510.12+15 434e159d15ae", "said(counting::FIT, `old`)"),
    At("511.12+24 44e752ddafa2", "said(counting::FIT, `old`)"),
    At(
        "512.12+19 f0ac937a3161",
        "said(counting::DENOMINATOR, `old`)",
    ),
    At("521.8+16 c28dab86bcb8", "said(counting::W1_SMALL, `old`)"),
    At("521.28+17 88db541e660b", "said(counting::W1_SIGN, `old`)"),
    At(
        "529.8+20 f64fd4a434a2",
        "said(counting::DISPLACEMENT_NOT_FINITE, `old`)",
    ),
    At(
        "529.32+20 aea7c2dcac08",
        "said(counting::DISPLACEMENT_NOT_FINITE, `old`)",
    ),
    At(
        "533.8+32 b886ba7de1d7",
        "said(counting::DISPLACEMENT_X, `old`)",
    ),
    At(
        "533.44+32 a072666d8a55",
        "said(counting::DISPLACEMENT_Y, `old`)",
    ),
];

pub const REFERENCE: &[Substitution] = &[
    // The set's names.
    At("27.1+26 8c38895d93da", NAMES),
    Word("SIGMAS", "here().sigmas", 15),
    // Document 01's named differences.
    Call(".max(", ".max_here(", 5),
    Call(".min(", ".min_here(", 3),
    Call(".clamp(", ".clamp_here(", 1),
    // and the same refinement of a spot at (0, 0).
    At(
        "255.28+70 e2156df08ed3",
        "{
                            let before = geometry;
                            `old`
                                && admits(
                                    (rows, cols),
                                    row * cols + col,
                                    &mut geometry,
                                    {
                                        let mut geometry = moves::still(&before);
                                        let accepted = `255.28+70 e2156df08ed3`;
                                        moves::displacement(accepted, &geometry)
                                    },
                                    &center,
                                    |index| {
                                        `240.33+49 bea8d7e13f5e`
                                    },
                                )
                        }",
    ),
    // The columns that are chosen: the one that a feed judges, those of a scene where a pixel is not 0.
    At("214.24+21 3bf3f8eb063e", "crate::columns::judged_of(`old`)"),
    // Where a scene's spot is refined: at its place in the tile that judges it.
    At("245.28+3 f6a9ad78f28e", "crate::scene::own(`old`, cols)"),
    At("246.28+3 d6f675604180", "crate::scene::own(`old`, rows)"),
    // Why a candidate is rejected.
    At(
        "235.26+29 eae6b9eb9211",
        "let_pass(counting::WINDOW, `old`)",
    ),
    At("235.59+6 0f2081eaa19d", "let_pass(counting::PEAK, `old`)"),
    At(
        "235.69+6 9eab7af79340",
        "let_pass(counting::curvature(curvature.is_finite(), polarity_matches), `old`)",
    ),
    At(
        "235.79+5 ec0d4f8a6d71",
        "let_pass(counting::NOT_OWNED, `old`)",
    ),
    At(
        "189.16+15 99d5674504b3",
        "said(counting::BAND_NOT_BEATEN, `old`)",
    ),
];

/// Everything from this place on is cut: pass 2 is left out.
pub const STREAM_CUT: &str = "448.1+136 603f2bbc2e31";

pub const STREAM: &[Substitution] = &[
    // The set's names.
    At("47.1+26 8c38895d93da", NAMES),
    Word("SIGMAS", "here().sigmas", 4),
    // Document 01's named differences.
    Call(".max(", ".max_here(", 2),
    Call(".min(", ".min_here(", 1),
    // and the same refinement of a spot at (0, 0).
    At(
        "438.12+77 5b06bde8d9e8",
        "{
            let before = geometry;
            `old`
                && admits(
                    (log.rows, cols),
                    row * cols + col,
                    &mut geometry,
                    {
                        let mut geometry = moves::still(&before);
                        let accepted = `438.12+77 5b06bde8d9e8`;
                        moves::displacement(accepted, &geometry)
                    },
                    &samples,
                    |index| {
                        `409.17+56 044465fbc18c`
                        `410.46+51 ea0e04b3ef05`
                    },
                )
        }",
    ),
];

pub const BLUR: &[Substitution] = &[
    // The set's names.
    At(
        "35.1+26 8c38895d93da",
        "use crate::here::{ByRules as _, here};\n",
    ),
    Word("SIGMAS", "here().sigmas", 5),
    // Document 02's largest radius.
    At("41.38+2 1ee1535c42f7", "16"),
    // Document 01's named differences, where floats are compared.
    Call(".max(", ".max_here(", 2),
];
