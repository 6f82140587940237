//! A stream of columns for the example `feed`: `columns SET MAP.csv` makes the four levels of a raw map under a set record and writes them to standard output
//! column by column, as a scanner with a blur behind it would: f32 little-endian, for each column that of level 0, 1, 2 and 3. The map's sides, which `feed`
//! is to be told, go to standard error.

mod common;

use std::io::Write;

fn main() -> Result<(), Box<dyn std::error::Error>> {
    let paths: Vec<String> = std::env::args().skip(1).collect();
    let [set, map] = paths.as_slice() else {
        return Err("use: columns SET MAP.csv".into());
    };
    let set = std::fs::read(set)?;
    let (rows, cols, raw) = common::read_map(map)?;
    let levels = uramsheg::four_levels(&set, rows, cols, 0, &raw)?;
    eprintln!("{rows} rows, {cols} cols");
    let mut output = std::io::stdout().lock();
    for col in 0..cols {
        for level in &levels {
            let column = &level[col * rows..][..rows];
            let bytes: Vec<u8> = column
                .iter()
                .flat_map(|pixel| pixel.to_le_bytes())
                .collect();
            output.write_all(&bytes)?;
        }
    }
    Ok(output.flush()?)
}
