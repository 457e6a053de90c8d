//! The table of border distances of the method HYP, in plain Rust with only std, for comparison.
//!
//!     rustc -O -o /tmp/borders checks/speed/borders.rs && /tmp/borders FILE COLUMNS ROWS
//!
//! It reads the road file, cuts the frame of the nodes into cells, takes the nodes with a road to another cell as
//! borders, and searches from each of them. It prints the counts of borders and of pairs and the sum of their
//! distances; the times of the parts go to standard error.

mod plain;

use std::time::Instant;

/// The cell of each position.
fn cells_of(nodes: &[(u32, i64, i64)], columns: i64, rows: i64) -> Vec<i64> {
    let slot = |values: &dyn Fn(&(u32, i64, i64)) -> i64, parts: i64| -> Vec<i64> {
        let (low, high) = (nodes.iter().map(values).min().unwrap(), nodes.iter().map(values).max().unwrap());
        nodes.iter().map(|node| (values(node) - low) * parts / (high - low + 1)).collect()
    };
    let (across, along) = (slot(&|node| node.1, columns), slot(&|node| node.2, rows));
    across.iter().zip(&along).map(|(column, row)| row * columns + column).collect()
}

fn main() {
    let words: Vec<String> = std::env::args().collect();
    let (columns, cell_rows) = (words[2].parse().unwrap(), words[3].parse().unwrap());
    let start = Instant::now();
    let roads = plain::Roads::read(&words[1]);
    let loaded = Instant::now();
    let rows = roads.rows();
    let cells = cells_of(&roads.nodes, columns, cell_rows);
    let borders: Vec<u32> = (0..rows.len() as u32)
        .filter(|here| rows[*here as usize].iter().any(|arc| cells[arc.0 as usize] != cells[*here as usize]))
        .collect();
    let built = Instant::now();
    let mut search = plain::Search::of(&rows);
    let (mut pairs, mut sum) = (0u64, 0u64);
    for (index, from) in borders.iter().enumerate() {
        search.from(&rows, *from, None);
        for to in &borders[index + 1..] {
            pairs += 1;
            sum = sum.wrapping_add(search.labels[*to as usize].0);
        }
    }
    let searched = built.elapsed();
    println!("{} borders, {pairs} pairs, distances {sum}", borders.len());
    eprintln!("load {:?}, build {:?}, searches {:?}, one {:?}", loaded - start, built - loaded, searched, searched / borders.len().max(1) as u32);
}
