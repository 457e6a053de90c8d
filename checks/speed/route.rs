//! The work of `route` in plain Rust with only std, for comparison.
//!
//!     rustc -O -o /tmp/route checks/speed/route.rs && /tmp/route FILE FROM TO [SEARCHES]
//!
//! It reads the road file, builds each node's least arcs, searches SEARCHES times (once), and prints the line.

mod plain;

fn main() {
    let words: Vec<String> = std::env::args().collect();
    let roads = plain::Roads::read(&words[1]);
    let rows = roads.rows();
    let (from, to) = (roads.place(words[2].parse().unwrap()), roads.place(words[3].parse().unwrap()));
    let mut search = plain::Search::of(&rows);
    for _ in 0..words.get(4).map_or(1, |word| word.parse().unwrap()) {
        search.from(&rows, from, Some(to));
    }
    let mut route = vec![to];
    while *route.last().unwrap() != from {
        route.push(search.labels[*route.last().unwrap() as usize].1);
    }
    let ids = route.iter().rev().map(|place| roads.nodes[*place as usize].0);
    println!("{}", plain::line(search.labels[to as usize].0, ids));
}
