//! The columns that the reference goes through: a feed has one judged, and far from every pixel of a scene that is not 0 there is nothing to find.

use core::cell::RefCell;
use core::ops::Range;
use std::rc::Rc;

thread_local! {
    static CHOSEN: RefCell<Option<Rc<[usize]>>> = const { RefCell::new(None) };
}

/// Of the reference's own columns those that were chosen, or all.
pub fn judged_of(columns: Range<usize>) -> impl Iterator<Item = usize> {
    let chosen = CHOSEN.with_borrow(Option::clone);
    let count = chosen.as_ref().map_or(columns.end, |chosen| chosen.len());
    let column = move |place: usize| chosen.as_ref().map_or(place, |chosen| chosen[place]);
    let own = move |column: &usize| columns.contains(column);
    (0..count).map(column).filter(own)
}

/// Runs `work` with these columns chosen, rising.
pub fn only<R>(chosen: Option<Vec<usize>>, work: impl FnOnce() -> R) -> R {
    let before = CHOSEN.replace(chosen.map(Rc::from));
    let result = work();
    CHOSEN.set(before);
    result
}
