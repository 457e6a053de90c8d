//! The client of authenticated routes, over the C library `libgogbetiku`. It checks the replies of an untrusted server
//! against the public key of the map's owner.
//!
//! ```
//! use gogbetiku::{Client, Kind};
//!
//! let client = Client::new(&[0; 56], &[]);
//! let refused = client.check_route(b"no reply", 1, 3, 1, false).unwrap_err();
//! assert_eq!((refused.kind, refused.first), (Kind::Malformed, 0));
//! ```
//!
//! `docs/LIBRARY.md` says what it accepts; the proofs cover the three calls of the C library. This crate is tested, not
//! proved. It keeps only the key and the chain, and borrows the reply during a call, so threads may share a client.
#![deny(missing_docs)]
#![warn(unsafe_op_in_unsafe_fn)]

use std::error::Error;
use std::fmt;

mod age;
mod raw;

/// The greatest number of nodes in a map, and so in a route or a radius.
pub const MOST_NODES: usize = 65_536;

/// The number of octets in a public key.
pub const KEY_OCTETS: usize = 56;

/// A node with its coordinates in the owner's map.
#[derive(Clone, Copy, Debug, PartialEq, Eq)]
#[repr(C)]
pub struct Node {
    /// Its id.
    pub id: u32,
    /// Its first coordinate, in the owner's unit.
    pub x: i32,
    /// Its second coordinate.
    pub y: i32,
}

/// A node within a radius, with its coordinates in the owner's map and its distance.
#[derive(Clone, Copy, Debug, PartialEq, Eq)]
#[repr(C)]
pub struct ReachedNode {
    /// Its id.
    pub id: u32,
    /// Its first coordinate, in the owner's unit.
    pub x: i32,
    /// Its second coordinate.
    pub y: i32,
    /// Its distance from the start, in the owner's unit of length.
    pub distance: u64,
}

/// What an accepted reply says of two nodes.
#[derive(Clone, Debug, PartialEq, Eq)]
pub enum Answer {
    /// A shortest route in the owner's map.
    Route(Route),
    /// No walk joins the two nodes.
    NoRoute {
        /// The version of the map.
        version: u64,
    },
}

/// A shortest route.
#[derive(Clone, Debug, PartialEq, Eq)]
pub struct Route {
    /// Its nodes from end to end, at least one.
    pub nodes: Vec<Node>,
    /// Its length, in the owner's unit.
    pub length: u64,
    /// The version of the map: keep the greatest, and pass it as `least`.
    pub version: u64,
}

/// All nodes within a radius.
#[derive(Clone, Debug, PartialEq, Eq)]
pub struct Within {
    /// The nodes, by ascending id, at least one.
    pub nodes: Vec<ReachedNode>,
    /// The version of the map.
    pub version: u64,
}

/// The nearest of listed nodes within a radius.
#[derive(Clone, Debug, PartialEq, Eq)]
pub struct Nearest {
    /// The nodes, by ascending distance and then by ascending id.
    pub nodes: Vec<ReachedNode>,
    /// The number of listed nodes within the radius. Any other listed id is farther, not joined to the start, or not a
    /// node.
    pub inside: u64,
    /// The version of the map.
    pub version: u64,
}

macro_rules! kinds {
    ($($(#[doc = $what:literal])* $kind:ident = $code:literal,)*) => {
        /// The test that a reply fails. Each variant says what `first` and `second` of the refusal are.
        #[derive(Clone, Copy, Debug, PartialEq, Eq, Hash)]
        #[non_exhaustive]
        pub enum Kind {
            $($(#[doc = $what])* $kind,)*
            /// A code unknown to this crate, or an answer that fits none.
            Unknown,
        }

        impl Kind {
            fn of(code: u32) -> Kind {
                match code {
                    $($code => Kind::$kind,)*
                    _ => Kind::Unknown,
                }
            }
        }
    };
}

kinds! {
    /// It says without a proof that an end is not a node or, from older servers, that no route joins the two: the kind.
    NotAnswer = 3,
    /// The octets are not a reply: the offset of the first field that cannot be read.
    Malformed = 4,
    /// It is older than the minimum version: its version.
    Stale = 5,
    /// A link of the chain is not signed: its number, and a reason. Fetch the chain again.
    BadChain = 6,
    /// The header is not signed under the key or the chain: a reason.
    BadSignature = 7,
    /// The leaves are not those of the signed map: the tree, and what is wrong with its cover.
    BadCover = 8,
    /// Two items are of the same node: its id.
    RepeatedNode = 9,
    /// The route does not follow signed roads from end to end: the hop.
    BadRoute = 10,
    /// A node that the proof needs is missing: its id.
    MissingTuple = 11,
    /// A distance that the proof needs is missing: the lesser id, and the greater.
    MissingPair = 12,
    /// The leaves show a shorter walk, or a walk although the reply says there is none: its length.
    Shorter = 13,
    /// A signed distance differs from the route's length: that distance.
    Disagrees = 14,
    /// The route passes a node twice, which `simple` refuses.
    PassesTwice = 15,
    /// Out of memory: try again.
    NoMemory = 16,
    /// A reply or a chain has 2^32 octets or more.
    TooLong = 17,
    /// The octets are not a chain: the offset of the first field that cannot be read. Fetch it again.
    MalformedChain = 18,
    /// For a client with a greatest age: dated more than a day ahead of its clock. The version, and the clock.
    Ahead = 32,
    /// The clock, by which an age is measured, cannot be right: the clock.
    WrongClock = 33,
    /// A gateway has no map young enough: the greatest age.
    NoneYoung = 34,
}

/// A reply that is not accepted. Its text is a sentence for people.
#[derive(Clone, Debug, PartialEq, Eq)]
pub struct Refused {
    /// The test that failed.
    pub kind: Kind,
    /// The number of `kind` in the C library.
    pub code: u32,
    /// The first number that the test found.
    pub first: u64,
    /// The second number that the test found.
    pub second: u64,
    /// The sentence for people.
    pub sentence: String,
    /// The command line's output, if it has a line for this.
    pub line: String,
}

impl fmt::Display for Refused {
    fn fmt(&self, out: &mut fmt::Formatter<'_>) -> fmt::Result {
        out.write_str(&self.sentence)
    }
}

impl Error for Refused {}

/// The error for a text that is not a public key, which has 112 hex digits.
#[derive(Clone, Copy, Debug, PartialEq, Eq)]
pub struct NoKey;

impl fmt::Display for NoKey {
    fn fmt(&self, out: &mut fmt::Formatter<'_>) -> fmt::Result {
        out.write_str("a public key has 112 hex digits")
    }
}

impl Error for NoKey {}

/// Decodes a public key in hex, as `road_proof key` writes it. Ignores space around it.
///
/// ```
/// assert_eq!(gogbetiku::key_of(&"0a".repeat(56)), Ok([10; 56]));
/// assert_eq!(gogbetiku::key_of("0a"), Err(gogbetiku::NoKey));
/// ```
pub fn key_of(text: &str) -> Result<[u8; KEY_OCTETS], NoKey> {
    let digits = text.trim().as_bytes();
    if digits.len() != 2 * KEY_OCTETS {
        return Err(NoKey);
    }
    let mut key = [0; KEY_OCTETS];
    for (octet, pair) in key.iter_mut().zip(digits.chunks(2)) {
        let nibble = |digit: u8| char::from(digit).to_digit(16).ok_or(NoKey);
        *octet = (nibble(pair[0])? << 4 | nibble(pair[1])?) as u8;
    }
    Ok(key)
}

/// Returns the version of the C library in use.
pub fn library_version() -> String {
    raw::version()
}

/// Checks replies under the public key of an owner.
#[derive(Clone, Debug)]
pub struct Client {
    key: [u8; KEY_OCTETS],
    chain: Vec<u8>,
    age: Option<age::Age>,
    name: String,
}

impl Client {
    /// Makes a client with the owner's public key and the octets of the chain file that leads to the owner's later
    /// keys, or none if there is only one key.
    pub fn new(key: &[u8; KEY_OCTETS], chain: &[u8]) -> Client {
        Client { key: *key, chain: chain.to_vec(), age: None, name: String::new() }
    }

    /// Sets the map's name, which comes from the owner with the key; no reply has one.
    pub fn with_name(mut self, name: &str) -> Client {
        self.name = name.to_string();
        self
    }

    /// Returns the map's name, for people.
    pub fn name(&self) -> &str {
        &self.name
    }

    /// Returns what a reply proves of the shortest route between two nodes. `least` is the minimum version accepted.
    /// With `simple`, a route that passes a node twice is refused; an honest server never sends one.
    ///
    /// # Errors
    /// `Refused`, if the reply is not accepted.
    pub fn check_route(&self, reply: &[u8], from: u32, to: u32, least: u64, simple: bool) -> Result<Answer, Refused> {
        let (nodes, verdict) = raw::route(&self.key, &self.chain, reply, from, to, self.leasts(least)?.0, simple)?;
        let verdict = self.not_ahead(verdict)?;
        Ok(match verdict.code {
            raw::NO_ROUTE => Answer::NoRoute { version: verdict.version },
            _ => Answer::Route(Route { nodes, length: verdict.length, version: verdict.version }),
        })
    }

    /// Returns the nodes that a reply proves to be all those within a radius of a node.
    ///
    /// # Errors
    /// `Refused`, if the reply is not accepted.
    pub fn check_reach(&self, reply: &[u8], from: u32, radius: u64, least: u64) -> Result<Within, Refused> {
        let (nodes, verdict) = raw::reach(&self.key, &self.chain, reply, from, radius, self.leasts(least)?.0)?;
        let verdict = self.not_ahead(verdict)?;
        Ok(Within { nodes, version: verdict.version })
    }

    /// Returns the nearest of the listed nodes that a reply to a range query proves to lie within the radius, at most
    /// `count` of them. The ids may be in any order; one that is listed twice counts once.
    ///
    /// # Errors
    /// `Refused`, if the reply is not accepted.
    pub fn nearest(&self, reply: &[u8], from: u32, radius: u64, ids: &[u32], least: u64, count: usize) -> Result<Nearest, Refused> {
        let asked = raw::Asked { from, radius, ids, count };
        let (nodes, verdict) = raw::nearest(&self.key, &self.chain, reply, &asked, self.leasts(least)?.0)?;
        let verdict = self.not_ahead(verdict)?;
        Ok(Nearest { nodes, inside: verdict.count, version: verdict.version })
    }
}
