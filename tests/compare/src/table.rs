//! A Markdown table with aligned columns.

/// The first row is the heading. The first column is aligned left, the
/// others right.
pub fn table(rows: &[Vec<String>]) -> String {
    let columns = rows.first().map_or(0, Vec::len);
    let width = |column: usize| rows.iter().map(|row| row[column].len()).max().unwrap_or(0).max(4);
    let widths: Vec<usize> = (0..columns).map(width).collect();
    let mut text = String::new();
    for (index, row) in rows.iter().enumerate() {
        push_row(&mut text, &padded(row, &widths));
        if index == 0 {
            push_row(&mut text, &rule(&widths));
        }
    }
    text
}

fn padded(row: &[String], widths: &[usize]) -> Vec<String> {
    let cell = |(column, (cell, &width)): (usize, (&String, &usize))| match column {
        0 => format!("{cell:<width$}"),
        _ => format!("{cell:>width$}"),
    };
    row.iter().zip(widths).enumerate().map(cell).collect()
}

fn rule(widths: &[usize]) -> Vec<String> {
    let cell = |(column, &width): (usize, &usize)| match column {
        0 => "-".repeat(width),
        _ => format!("{}:", "-".repeat(width - 1)),
    };
    widths.iter().enumerate().map(cell).collect()
}

fn push_row(text: &mut String, cells: &[String]) {
    text.push_str("| ");
    text.push_str(&cells.join(" | "));
    text.push_str(" |\n");
}

#[cfg(test)]
mod tests {
    use super::table;

    #[test]
    fn columns() {
        let row = |cells: [&str; 2]| cells.map(str::to_string).to_vec();
        let text = table(&[row(["name", "ms"]), row(["longer", "7"])]);
        assert_eq!(text, "| name   |   ms |\n| ------ | ---: |\n| longer |    7 |\n");
    }
}
