//! Tables as Markdown, the columns but the last padded so that they can be read as they stand.

pub struct Table {
    rows: Vec<Vec<String>>,
}

impl Table {
    pub fn new(heads: &[&str]) -> Self {
        Self { rows: vec![heads.iter().map(|head| head.to_string()).collect()] }
    }

    /// As many cells as heads.
    pub fn row(&mut self, cells: Vec<String>) {
        assert_eq!(cells.len(), self.rows[0].len(), "a cell for each head");
        self.rows.push(cells);
    }

    pub fn print(&self) {
        let columns = 0..self.rows[0].len();
        let longest = |i: usize| self.rows.iter().map(|row| row[i].chars().count()).max();
        let mut widths: Vec<usize> = columns.map(|i| longest(i).unwrap_or(0)).collect();
        *widths.last_mut().expect("a column") = 0;
        let line = |row: &Vec<String>| {
            let cells = row.iter().zip(&widths).map(|(cell, width)| format!(" {cell:width$} |"));
            format!("|{}", cells.collect::<String>())
        };
        println!("{}", line(&self.rows[0]));
        println!("|{}", "---|".repeat(widths.len()));
        self.rows[1..].iter().for_each(|row| println!("{}", line(row)));
    }
}

/// The items in a row behind the word; nothing if there are none.
pub fn listed(word: &str, items: &[String]) -> String {
    if items.is_empty() { String::new() } else { format!("{word}: {}.", items.join("; ")) }
}

/// A whole number with commas: 1,024.
pub fn grouped(number: u64) -> String {
    let digits = number.to_string();
    let mut out = String::new();
    for (i, digit) in digits.chars().enumerate() {
        if i > 0 && (digits.len() - i).is_multiple_of(3) {
            out.push(',');
        }
        out.push(digit);
    }
    out
}
