//! What the examples share: a raw map from text.

use std::error::Error;

/// A map's rows, its cols and its pixels by columns. A line of the text is a row, its numbers parted by commas; nan is a lost pixel.
pub fn read_map(path: &str) -> Result<(usize, usize, Vec<f32>), Box<dyn Error>> {
    let text = std::fs::read_to_string(path)?;
    let lines: Vec<Vec<f32>> = text
        .lines()
        .map(|line| line.split(',').map(str::parse).collect())
        .collect::<Result<_, _>>()?;
    let (rows, cols) = (lines.len(), lines.first().map_or(0, Vec::len));
    if lines.iter().any(|line| line.len() != cols) {
        return Err("the map's lines are not all of one length".into());
    }
    let raw = (0..rows * cols)
        .map(|place| lines[place % rows][place / rows])
        .collect();
    Ok((rows, cols, raw))
}
