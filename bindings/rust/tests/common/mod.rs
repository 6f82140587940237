//! What the tests share.

/// Set T's record.
pub fn set_t() -> Vec<u8> {
    let mut words = vec![0.0f32; 129];
    words[..4].copy_from_slice(&[1.0, 2.0, 3.0, 4.0]);
    for table in [4, 16] {
        for row in 1..4 {
            words[table + 3 * row + row - 1] = 1.0;
        }
    }
    for block in [28, 73] {
        words[block + 3] = 1.0;
        words[block + 9 + 5] = 1.0;
        words[block + 27 + 4] = 0.25;
    }
    words[118..].copy_from_slice(&[1.0, 0.5, -4.0, 4.0, 0.5, 16.0, 0.5, 1.0, 0.125, 0.5, 1.0]);
    let mut record: Vec<u8> = words.iter().flat_map(|word| word.to_le_bytes()).collect();
    record.extend([0, 1, 2, 3, 4, 5, 6, 7, 8, 0, 0, 0]);
    record
}
