//! The hashes of `key` and of `check`, by RustCrypto's sha2. `checks/speed/all` builds it, over Debian's crates.
//!
//!     hashes key SECRET h5|h10    the public key of LMS (RFC 8554) from I and SEED, as `key` writes it
//!     hashes reply FILE FAN       hashes each leaf of a reply, and as many inner nodes as its trees have above the
//!                                 leaves and digests of the reply; prints the number of each

use sha2::{Digest, Sha256};

const CHAINS: u16 = 34;
const LAST: u8 = 255;
/// The octets of a header, docs/SPEC.md, 6.1.
const HEADER: usize = 104;

fn hash(parts: &[&[u8]]) -> [u8; 32] {
    let mut hasher = Sha256::new();
    for part in parts {
        hasher.update(part);
    }
    hasher.finalize().into()
}

fn octets_of(hex: &str) -> Vec<u8> {
    (0..hex.len() / 2).map(|at| u8::from_str_radix(&hex[2 * at..2 * at + 2], 16).unwrap()).collect()
}

/// The public value of the one-time key with a number: the hash of the ends of its chains.
fn one_time(id: &[u8], seed: &[u8], number: u32) -> [u8; 32] {
    let place = number.to_be_bytes();
    let mut ends = Vec::new();
    for chain in 0..CHAINS {
        let chain = chain.to_be_bytes();
        let mut value = hash(&[id, &place, &chain, &[0xff], seed]);
        for step in 0..LAST {
            value = hash(&[id, &place, &chain, &[step], &value]);
        }
        ends.extend(value);
    }
    hash(&[id, &place, &[0x80, 0x80], &ends])
}

fn key(secret: &str, kind: &str) -> String {
    let secret = octets_of(std::fs::read_to_string(secret).unwrap().trim());
    let (id, seed) = secret.split_at(16);
    let (kind, count): (u8, u32) = if kind == "h10" { (6, 1024) } else { (5, 32) };
    let mut level: Vec<[u8; 32]> = (0..count)
        .map(|number| hash(&[id, &(count + number).to_be_bytes(), &[0x82, 0x82], &one_time(id, seed, number)]))
        .collect();
    while level.len() > 1 {
        let first = level.len() as u32 / 2;
        level = level.chunks(2).zip(first..)
            .map(|(pair, place)| hash(&[id, &place.to_be_bytes(), &[0x83, 0x83], &pair[0], &pair[1]]))
            .collect();
    }
    let public: Vec<u8> = [vec![0, 0, 0, kind, 0, 0, 0, 4], id.to_vec(), level[0].to_vec()].concat();
    public.iter().map(|octet| format!("{octet:02x}")).collect()
}

/// The unread rest of a reply.
struct Rest<'a>(&'a [u8]);

impl<'a> Rest<'a> {
    fn take(&mut self, count: usize) -> &'a [u8] {
        let (front, rest) = self.0.split_at(count);
        self.0 = rest;
        front
    }

    fn number(&mut self, octets: usize) -> usize {
        self.take(octets).iter().fold(0, |value, octet| value << 8 | usize::from(*octet))
    }
}

/// Hashes as many inner nodes as reduce this many digests to one. Returns the number of nodes.
fn fold(digests: usize, fan: usize) -> usize {
    let children = vec![0; 32 * fan];
    let inner = digests.saturating_sub(1).div_ceil(fan - 1);
    for _ in 0..inner {
        std::hint::black_box(hash(&[&[1], &children]));
    }
    inner
}

fn reply(file: &str, fan: usize) -> String {
    let text = std::fs::read(file).unwrap();
    let mut rest = Rest(&text);
    let kind = rest.number(1);
    rest.take(HEADER);
    let signature = rest.number(2);
    rest.take(signature);
    if kind == 0 {
        let route = rest.number(4);
        rest.take(4 * route);
    }
    let mut counts = [0, 0];
    for (count, pair) in counts.iter_mut().zip([false, true]) {
        *count = rest.number(4);
        for _ in 0..*count {
            rest.take(4);
            let length = if pair { 17 } else { rest.number(2) };
            std::hint::black_box(hash(&[&[0], rest.take(length)]));
        }
    }
    let inner: Vec<usize> = counts.iter().map(|leaves| {
        let cover = rest.number(4);
        rest.take(32 * cover);
        fold(leaves + cover, fan)
    }).collect();
    format!("{} and {} leaves, {} and {} inner positions", counts[0], counts[1], inner[0], inner[1])
}

fn main() {
    let words: Vec<String> = std::env::args().collect();
    match words[1].as_str() {
        "key" => println!("{}", key(&words[2], &words[3])),
        _ => println!("{}", reply(&words[2], words[3].parse().unwrap())),
    }
}
