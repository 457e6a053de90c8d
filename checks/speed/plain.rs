//! Shared by the plain programs in this folder: a road file, its arcs by position, and a search, with only std.

#![allow(dead_code)]

use std::cmp::Reverse;
use std::collections::BinaryHeap;

/// The nodes by ascending id, each with its place, and the roads.
pub struct Roads {
    pub nodes: Vec<(u32, i64, i64)>,
    pub roads: Vec<(u32, u32, u32)>,
}

impl Roads {
    /// Reads a road file that is known to be one.
    pub fn read(file: &str) -> Roads {
        let text = std::fs::read(file).unwrap();
        let (mut nodes, mut roads) = (Vec::new(), Vec::new());
        for line in text.split(|octet| *octet == b'\n') {
            let mut words = line.split(|octet| *octet == b' ' || *octet == b'\t');
            match words.next() {
                Some(b"node") => nodes.push((number(words.next()) as u32, number(words.next()), number(words.next()))),
                Some(b"road") => roads.push((number(words.next()) as u32, number(words.next()) as u32, number(words.next()) as u32)),
                _ => {}
            }
        }
        nodes.sort();
        Roads { nodes, roads }
    }

    /// The position of an id.
    pub fn place(&self, id: u32) -> u32 {
        self.nodes.binary_search_by_key(&id, |node| node.0).unwrap() as u32
    }

    /// The arcs out of each position, each to the position of its end, the least of parallel roads.
    pub fn rows(&self) -> Rows {
        let mut rows: Rows = vec![Vec::new(); self.nodes.len()];
        for &(a, b, length) in &self.roads {
            let (a, b) = (self.place(a), self.place(b));
            rows[a as usize].push((b, length));
            rows[b as usize].push((a, length));
        }
        for row in &mut rows {
            row.sort();
            row.dedup_by_key(|arc| arc.0);
        }
        rows
    }
}

fn number(word: Option<&[u8]>) -> i64 {
    std::str::from_utf8(word.unwrap()).unwrap().parse().unwrap()
}

pub type Rows = Vec<Vec<(u32, u32)>>;

/// The state of a search: the distance of each position from the start (`u64::MAX` if no walk is known), the previous
/// position on such a walk, and a heap, which may have stale entries.
pub struct Search {
    pub labels: Vec<(u64, u32)>,
    heap: BinaryHeap<Reverse<(u64, u32)>>,
}

impl Search {
    pub fn of(rows: &Rows) -> Search {
        Search { labels: vec![(u64::MAX, 0); rows.len()], heap: BinaryHeap::new() }
    }

    /// Searches from a position, up to the end if there is one.
    pub fn from(&mut self, rows: &Rows, from: u32, to: Option<u32>) {
        self.labels.fill((u64::MAX, from));
        self.labels[from as usize].0 = 0;
        self.heap.clear();
        self.heap.push(Reverse((0, from)));
        while let Some(Reverse((length, here))) = self.heap.pop() {
            if self.labels[here as usize].0 < length {
                continue;
            }
            if to == Some(here) {
                return;
            }
            for &(there, road) in &rows[here as usize] {
                let through = length + u64::from(road);
                if through < self.labels[there as usize].0 {
                    self.labels[there as usize] = (through, here);
                    self.heap.push(Reverse((through, there)));
                }
            }
        }
    }
}

/// A line like that of `route`.
pub fn line(length: u64, ids: impl Iterator<Item = u32>) -> String {
    let words: Vec<String> = ids.map(|id| id.to_string()).collect();
    format!("{length}: {}", words.join(" "))
}
