//! Tables of what was measured, in columns or in Markdown.

/// The middle of these numbers.
pub fn median(values: impl Iterator<Item = f64>) -> f64 {
    let mut values: Vec<f64> = values.collect();
    values.sort_by(f64::total_cmp);
    let middle = values.len() / 2;
    match values.len() % 2 {
        0 => (values[middle - 1] + values[middle]) / 2.0,
        _ => values[middle],
    }
}

/// A table whose rows are shown as they come: a name first, and then numbers.
pub struct Table {
    is_page: bool,
    widths: Vec<usize>,
}

/// How wide the column of names is, where the table isn't a page's.
const NAME_WIDTH: usize = 42;

impl Table {
    /// Shows the head.
    pub fn new<const N: usize>(is_page: bool, heads: [&str; N]) -> Table {
        let widths = heads.iter().map(|head| head.len().max(11) + 1).collect();
        let mut table = Table { is_page, widths };
        table.row(heads.map(str::to_string));
        if is_page {
            println!("|---|{}", "---:|".repeat(N - 1));
        }
        table
    }

    /// Shows a row.
    pub fn row<const N: usize>(&mut self, cells: [String; N]) {
        if self.is_page {
            println!("| {} |", cells.join(" | "));
            return;
        }
        print!("{:<NAME_WIDTH$}", cells[0]);
        for (cell, width) in cells.iter().zip(&self.widths).skip(1) {
            print!("{cell:>width$}");
        }
        println!();
    }
}
