//! Document 01's cases P9 to P12, as the judge answers them.

use crate::record::{SPOT, floats};
use crate::{Logs, Rules, Set, correct, list_program};

/// The list program's input for map M, with one pixel of level 0 NaN if a place is given.
pub fn map_m(lost: Option<(usize, usize)>) -> Vec<u8> {
    let (rows, cols) = (9, 10);
    let mut levels = vec![0.0f32; 4 * rows * cols];
    levels[4 * rows + 4] = 0.25;
    levels[rows * cols + 4 * rows + 4] = -0.25;
    if let Some((row, col)) = lost {
        levels[col * rows + row] = f32::NAN;
    }
    let mut input = Set::t().to_record().to_vec();
    let thresholds = [1.0f32, 1.0, 10.0, 1.9027314, 4.1498866];
    input.extend(thresholds.iter().flat_map(|value| value.to_le_bytes()));
    input.extend(
        [rows as u32, cols as u32, 0]
            .iter()
            .flat_map(|value| value.to_le_bytes()),
    );
    input.extend(levels.iter().flat_map(|value| value.to_le_bytes()));
    input
}

fn printed(lost: Option<(usize, usize)>) -> String {
    String::from_utf8(list_program(&map_m(lost), true)).unwrap()
}

/// P9's spot corrected as a minimum under T.
fn corrected_as_minimum() -> String {
    let line = printed(None);
    let byte = |k: usize| u8::from_str_radix(&line[2 * k..2 * k + 2], 16).unwrap();
    let record: Vec<u8> = (0..SPOT).map(byte).collect();
    let [_, _, sigma, _, samples @ ..] = floats(&record);
    match correct(
        Rules::Document,
        Logs::Steps,
        &Set::t(),
        samples,
        sigma,
        false,
    ) {
        Ok(size) => format!("{size}\n"),
        Err(refusal) => format!("refused {}\n", refusal.number),
    }
}

/// The four cases by name, each with what it prints.
pub fn all() -> [(&'static str, String); 4] {
    [
        ("P9", printed(None)),
        ("P10", printed(Some((2, 4)))),
        ("P11", printed(Some((2, 2)))),
        ("P12", corrected_as_minimum()),
    ]
}
