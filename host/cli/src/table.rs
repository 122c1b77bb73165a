//! A table of text: columns as wide as their widest cell.

/// The rows with their cells side by side; the last column is not filled up.
pub fn print(rows: &[Vec<String>]) -> String {
    let columns = rows.iter().map(Vec::len).max().unwrap_or(0);
    let width = |column: usize| {
        let cells = rows.iter().filter_map(|row| row.get(column));
        cells.map(|cell| cell.chars().count()).max().unwrap_or(0)
    };
    let widths: Vec<usize> = (0..columns).map(width).collect();
    let mut text = String::new();
    for row in rows {
        let filled = |(cell, width): (&String, &usize)| {
            cell.clone() + &" ".repeat(width.saturating_sub(cell.chars().count()))
        };
        let line = row.iter().zip(&widths).map(filled).collect::<Vec<_>>().join("  ");
        text.push_str(line.trim_end());
        text.push('\n');
    }
    text
}
