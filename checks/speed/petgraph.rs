//! The work of `route`, done by petgraph: FILE FROM TO. `checks/speed/all` builds it from Debian's crates.
//!
//! It reads the road file like the plain program in this folder, and builds an undirected graph with an index of its ids.
//! Petgraph searches up to the end. The program then goes back along the found lengths, and prints the line.

mod plain;

use petgraph::algo::dijkstra;
use petgraph::graph::{NodeIndex, UnGraph};
use petgraph::visit::EdgeRef;
use std::collections::HashMap;

fn main() {
    let words: Vec<String> = std::env::args().collect();
    let roads = plain::Roads::read(&words[1]);
    let mut graph = UnGraph::<u32, u32>::with_capacity(roads.nodes.len(), roads.roads.len());
    let ids: HashMap<u32, NodeIndex> = roads.nodes.iter().map(|node| (node.0, graph.add_node(node.0))).collect();
    for (a, b, length) in &roads.roads {
        graph.add_edge(ids[a], ids[b], *length);
    }
    let (from, to) = (ids[&words[2].parse().unwrap()], ids[&words[3].parse().unwrap()]);
    let lengths = dijkstra(&graph, from, Some(to), |road| u64::from(*road.weight()));
    let mut route = vec![to];
    while *route.last().unwrap() != from {
        let here = *route.last().unwrap();
        let is_before = |there: &NodeIndex, length: u32| lengths.get(there).is_some_and(|far| far + u64::from(length) == lengths[&here]);
        let before = graph.edges(here).find(|road| is_before(&road.target(), *road.weight())).unwrap();
        route.push(before.target());
    }
    println!("{}", plain::line(lengths[&to], route.iter().rev().map(|here| graph[*here])));
}
