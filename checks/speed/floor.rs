//! The least possible cost of an answer: plain searches for the pairs of a file. Usage: ROADS PAIRS KIND RUNS.
//! `checks/speed/far.py` builds it.
//!
//! KIND is `plain` for Dijkstra's search, which stops at the end; `codes` for A* over the codes of 16 landmarks of 12 bits;
//! or `within` for a search up to a radius, given in place of the end. It prints the nanoseconds of a query, the least of
//! the runs. Without RUNS it searches once for each pair, in the function `searched`, whose instructions are counted.

mod plain;

use std::cmp::Reverse;
use std::collections::BinaryHeap;

const LANDMARKS: usize = 16;
const FAR: u64 = u64::MAX;

struct Graph {
    starts: Vec<usize>,
    arcs: Vec<(u32, u32)>,
}

impl Graph {
    fn out(&self, node: usize) -> &[(u32, u32)] {
        &self.arcs[self.starts[node]..self.starts[node + 1]]
    }

    fn of(roads: &plain::Roads) -> Graph {
        let mut lists = vec![vec![]; roads.nodes.len()];
        for &(a, b, length) in &roads.roads {
            lists[roads.place(a) as usize].push((roads.place(b), length));
            lists[roads.place(b) as usize].push((roads.place(a), length));
        }
        let mut starts = vec![0];
        for list in &lists {
            starts.push(starts.last().unwrap() + list.len());
        }
        Graph { starts, arcs: lists.concat() }
    }

    /// The least lengths from a start below a limit, as far as an end where there is one, in room whose touched places are
    /// noted.
    fn search(&self, room: &mut Room, start: usize, end: usize, limit: u64, bound: impl Fn(usize) -> u64) -> u64 {
        room.clear();
        let mut heap = BinaryHeap::from([Reverse((bound(start), 0, start as u32))]);
        room.set(start, 0);
        while let Some(Reverse((_, length, here))) = heap.pop() {
            if length > room.lengths[here as usize] {
                continue;
            }
            if here as usize == end {
                return length;
            }
            for &(there, road) in self.out(here as usize) {
                let further = length + u64::from(road);
                if further < limit && further < room.lengths[there as usize] {
                    room.set(there as usize, further);
                    heap.push(Reverse((further + bound(there as usize), further, there)));
                }
            }
        }
        FAR
    }
}

struct Room {
    lengths: Vec<u64>,
    touched: Vec<usize>,
}

impl Room {
    fn clear(&mut self) {
        for node in self.touched.drain(..) {
            self.lengths[node] = FAR;
        }
    }

    fn set(&mut self, node: usize, length: u64) {
        if self.lengths[node] == FAR {
            self.touched.push(node);
        }
        self.lengths[node] = length;
    }
}

/// Landmarks, each the node farthest from the previous ones, and the codes of each node: lengths in steps.
fn codes_of(graph: &Graph, room: &mut Room) -> (Vec<u16>, u64) {
    let count = room.lengths.len();
    let (mut rows, mut nearest, mut next) = (vec![], vec![FAR; count], 0);
    for _ in 0..LANDMARKS.min(count) {
        graph.search(room, next, usize::MAX, FAR, |_| 0);
        rows.push(room.lengths.clone());
        for (least, length) in nearest.iter_mut().zip(&room.lengths) {
            *least = (*least).min(*length);
        }
        next = (0..count).filter(|&node| nearest[node] < FAR).max_by_key(|&node| nearest[node]).unwrap();
    }
    let step = rows.iter().flatten().filter(|length| **length < FAR).max().unwrap() / 4095 + 1;
    let code = |length: u64| if length == FAR { u16::MAX } else { (length / step) as u16 };
    ((0..count).flat_map(|node| rows.iter().map(move |row| code(row[node]))).collect(), step)
}

/// The CPU time of this process in nanoseconds.
fn spent() -> u64 {
    let told = std::fs::read_to_string("/proc/self/schedstat").unwrap();
    told.split(' ').next().unwrap().parse().unwrap()
}

/// A search: its pairs and its kind.
struct Floor {
    graph: Graph,
    codes: Vec<u16>,
    step: u64,
    pairs: Vec<(u32, u32)>,
    kind: String,
}

impl Floor {
    fn bound(&self, node: usize, end: usize) -> u64 {
        let marks = self.codes.len() / (self.graph.starts.len() - 1);
        let gaps = (0..marks).map(|mark| {
            self.codes[node * marks + mark].abs_diff(self.codes[end * marks + mark]).saturating_sub(1)
        });
        u64::from(gaps.max().unwrap_or(0)) * self.step
    }
}

/// Searches once for each pair. Returns the sum of the lengths.
#[no_mangle]
#[inline(never)]
extern "C" fn searched(floor: &Floor, room: &mut Room) -> u64 {
    let one = |&(start, end): &(u32, u32)| {
        let (start, end) = (start as usize, end as usize);
        match floor.kind.as_str() {
            "plain" => floor.graph.search(room, start, end, FAR, |_| 0),
            "codes" => floor.graph.search(room, start, end, FAR, |node| floor.bound(node, end)),
            _ => {
                floor.graph.search(room, start, usize::MAX, end as u64 + 1, |_| 0);
                room.touched.len() as u64
            }
        }
    };
    floor.pairs.iter().map(one).sum()
}

/// The nanoseconds of a query: the least of several runs of a tenth of a second.
fn timed(floor: &Floor, room: &mut Room, runs: usize) -> u64 {
    let least = (0..runs).map(|_| {
        let (begun, mut rounds) = (spent(), 0);
        while rounds == 0 || spent() - begun < 100_000_000 {
            std::hint::black_box(searched(floor, room));
            rounds += 1;
        }
        (spent() - begun) / rounds
    });
    least.min().unwrap() / floor.pairs.len() as u64
}

fn main() {
    let words: Vec<String> = std::env::args().collect();
    let (kind, runs) = (words[3].clone(), words[4].parse().unwrap());
    let roads = plain::Roads::read(&words[1]);
    let graph = Graph::of(&roads);
    let mut room = Room { lengths: vec![FAR; roads.nodes.len()], touched: vec![] };
    let (codes, step) = if kind == "codes" { codes_of(&graph, &mut room) } else { (vec![], 1) };
    let text = std::fs::read_to_string(&words[2]).unwrap();
    let numbers: Vec<u32> = text.split_whitespace().map(|word| word.parse().unwrap()).collect();
    let end = |number| if kind == "within" { number } else { roads.place(number) };
    let pairs = numbers.chunks(2).map(|pair| (roads.place(pair[0]), end(pair[1]))).collect();
    let floor = Floor { graph, codes, step, pairs, kind };
    if runs == 0 {
        println!("{}", searched(&floor, &mut room));
    } else {
        println!("{}", timed(&floor, &mut room, runs));
    }
}
