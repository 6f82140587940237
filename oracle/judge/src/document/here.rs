//! The set and the rules that the build with a run-time set works under.

use crate::shims::math_compat;
use crate::{Logs, Rules, Set};
use core::cell::Cell;

/// A set in the shape of the published tables; what they hold and no set gives is NaN.
pub struct Tables {
    pub rules: Rules,
    pub sigmas: [f32; 4],
    pub scale: [[f32; 4]; 4],
    pub geometry: [[f32; 4]; 4],
    pub spatial: [[f32; 45]; 4],
    pub order: [usize; 9],
    pub log_sigma_origin: f32,
    pub curvature_epsilon: f32,
    pub fit_t_min: f32,
    pub fit_t_max: f32,
    pub accept_sigma_min: f32,
    pub accept_sigma_max: f32,
    pub blend_beta: f32,
    pub blend_boost: f32,
    pub compatibility_lower: f32,
    pub compatibility_upper: f32,
    pub final_move_cap_log2: f32,
}

fn cubic_rows(entries: &[f32; 12]) -> [[f32; 4]; 4] {
    core::array::from_fn(|row| {
        core::array::from_fn(|column| {
            if column < 3 {
                entries[3 * row + column]
            } else {
                f32::NAN
            }
        })
    })
}

impl Tables {
    fn of(rules: Rules, set: &Set) -> Tables {
        let block = |index: usize| core::array::from_fn(|k| set.spatial[45 * index + k]);
        let unused = [f32::NAN; 45];
        let [
            origin,
            epsilon,
            t_min,
            t_max,
            sigma_min,
            sigma_max,
            beta,
            boost,
            lower,
            upper,
            cap,
        ] = set.numbers;
        Tables {
            rules,
            sigmas: set.sigmas,
            scale: cubic_rows(&set.scale),
            geometry: cubic_rows(&set.geometry),
            spatial: [unused, block(0), block(1), unused],
            order: set.order.map(usize::from),
            log_sigma_origin: origin,
            curvature_epsilon: epsilon,
            fit_t_min: t_min,
            fit_t_max: t_max,
            accept_sigma_min: sigma_min,
            accept_sigma_max: sigma_max,
            blend_beta: beta,
            blend_boost: boost,
            compatibility_lower: lower,
            compatibility_upper: upper,
            final_move_cap_log2: cap,
        }
    }
}

thread_local! {
    static HERE: Cell<*const Tables> = const { Cell::new(core::ptr::null()) };
}

/// The tables of the innermost `with` around the caller.
#[inline]
pub fn here() -> &'static Tables {
    let tables = HERE.get();
    assert!(!tables.is_null(), "no set here");
    // SAFETY: `with` keeps the tables alive while the pointer stands, and nothing keeps what is read here past it.
    unsafe { &*tables }
}

struct Restore(*const Tables, Logs);

impl Drop for Restore {
    fn drop(&mut self) {
        HERE.set(self.0);
        math_compat::choose(self.1);
    }
}

/// Runs `work` under a set, the rules and a choice of log2 and exp.
pub fn with<R>(rules: Rules, logs: Logs, set: &Set, work: impl FnOnce() -> R) -> R {
    let tables = Tables::of(rules, set);
    let _restore = Restore(HERE.replace(&tables), math_compat::choose(logs));
    work()
}

/// min, max and clamp as the rules have them.
pub trait ByRules: Copy {
    fn max_here(self, other: Self) -> Self;
    fn min_here(self, other: Self) -> Self;
    fn clamp_here(self, low: Self, high: Self) -> Self;
}

impl ByRules for f32 {
    #[inline]
    fn max_here(self, other: f32) -> f32 {
        match here().rules {
            Rules::Published => self.max(other),
            Rules::Document if self.is_nan() || other > self => other,
            Rules::Document => self,
        }
    }

    #[inline]
    fn min_here(self, other: f32) -> f32 {
        match here().rules {
            Rules::Published => self.min(other),
            Rules::Document if self.is_nan() || other < self => other,
            Rules::Document => self,
        }
    }

    #[inline]
    fn clamp_here(self, low: f32, high: f32) -> f32 {
        match here().rules {
            Rules::Published => self.clamp(low, high),
            Rules::Document if self < low => low,
            Rules::Document if self > high => high,
            Rules::Document => self,
        }
    }
}

macro_rules! whole_numbers {
    ($($whole:ty)*) => {$(
        impl ByRules for $whole {
            fn max_here(self, other: $whole) -> $whole {
                self.max(other)
            }
            fn min_here(self, other: $whole) -> $whole {
                self.min(other)
            }
            fn clamp_here(self, low: $whole, high: $whole) -> $whole {
                self.clamp(low, high)
            }
        }
    )*};
}
whole_numbers!(usize i32);

/// A sum as the rules have it: the library's, or from +0 on.
pub trait SumByRules: Iterator<Item = f32> + Sized {
    #[inline]
    fn sum_here(self) -> f32 {
        match here().rules {
            Rules::Published => self.sum(),
            Rules::Document => self.fold(0.0, |total, term| total + term),
        }
    }
}

impl<I: Iterator<Item = f32>> SumByRules for I {}

/// Samples by the order bytes; one that no byte of a good set names is NaN.
pub struct Named<'a>(pub &'a [f32; 9]);

impl core::ops::Index<usize> for Named<'_> {
    type Output = f32;

    #[inline]
    fn index(&self, name: usize) -> &f32 {
        self.0.get(name).unwrap_or(&f32::NAN)
    }
}
