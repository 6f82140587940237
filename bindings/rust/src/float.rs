//! The float helpers. Every function takes every float and always returns, so nothing has to be tested before a call.

mod raw {
    unsafe extern "C" {
        pub safe fn uramsheg_abs(x: f32) -> f32;
        pub safe fn uramsheg_min(a: f32, b: f32) -> f32;
        pub safe fn uramsheg_max(a: f32, b: f32) -> f32;
        pub safe fn uramsheg_clamp(x: f32, low: f32, high: f32) -> f32;
        pub safe fn uramsheg_is_finite(x: f32) -> bool;
        pub safe fn uramsheg_sqrt(x: f32) -> f32;
        pub safe fn uramsheg_log2(x: f32) -> f32;
        pub safe fn uramsheg_exp(x: f32) -> f32;
        pub safe fn uramsheg_nearest(x: f32) -> u32;
    }
}

macro_rules! of_archive {
    ($($(#[$about:meta])* $name:ident, $raw:ident, ($($arg:ident),*), $result:ty;)*) => {$(
        $(#[$about])*
        #[inline]
        pub fn $name($($arg: f32),*) -> $result {
            raw::$raw($($arg),*)
        }
    )*};
}

of_archive! {
    abs, uramsheg_abs, (x), f32;
    min, uramsheg_min, (a, b), f32;
    max, uramsheg_max, (a, b), f32;
    clamp, uramsheg_clamp, (x, low, high), f32;
    is_finite, uramsheg_is_finite, (x), bool;
    sqrt, uramsheg_sqrt, (x), f32;
    log2, uramsheg_log2, (x), f32;
    exp, uramsheg_exp, (x), f32;
    /// The whole number nearest to x, a half to the larger; 0 for NaN and below 0, `u32::MAX` from 2^32 on.
    nearest, uramsheg_nearest, (x), u32;
}
