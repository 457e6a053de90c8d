//! The calls of `gogbetiku.h`, with fixed-width types at the boundary (`size_t` is `usize`), and a safe wrapper of
//! each.
use crate::{Kind, Node, ReachedNode, Refused, KEY_OCTETS, MOST_NODES};

pub const NO_ROUTE: u32 = 2;
pub const AHEAD: u32 = 32;
pub const WRONG_CLOCK: u32 = 33;
pub const NONE_YOUNG: u32 = 34;
const ACCEPTED: u32 = 1;
const NONE_WITHIN: u32 = 19;
const SENTENCE: usize = 256;

/// `struct gog_verdict`.
#[repr(C)]
pub struct Verdict {
    pub code: u32,
    pub count: u64,
    pub length: u64,
    pub version: u64,
    first: u64,
    second: u64,
    line_length: u64,
    line: [u8; 128],
}

impl Verdict {
    /// Makes a verdict that no check has written.
    fn none() -> Verdict {
        Verdict { code: 0, count: 0, length: 0, version: 0, first: 0, second: 0, line_length: 0, line: [0; 128] }
    }

    /// Makes a verdict with only a number for a sentence.
    pub fn of(first: u64) -> Verdict {
        Verdict { first, ..Verdict::none() }
    }
}

extern "C" {
    #[rustfmt::skip]
    fn gog_check_route(
        key: *const u8, key_length: usize, chain: *const u8, chain_length: usize, reply: *const u8, reply_length: usize,
        from: u32, to: u32, least: u64, simple: u32, nodes: *mut Node, room: usize, verdict: *mut Verdict,
    ) -> u32;
    #[rustfmt::skip]
    fn gog_check_reach(
        key: *const u8, key_length: usize, chain: *const u8, chain_length: usize, reply: *const u8, reply_length: usize,
        from: u32, radius: u64, least: u64, nodes: *mut ReachedNode, room: usize, verdict: *mut Verdict,
    ) -> u32;
    #[rustfmt::skip]
    fn gog_nearest(
        key: *const u8, key_length: usize, chain: *const u8, chain_length: usize, reply: *const u8, reply_length: usize,
        from: u32, radius: u64, least: u64, ids: *const u32, ids_length: usize, nodes: *mut ReachedNode, room: usize,
        verdict: *mut Verdict,
    ) -> u32;
    fn gog_accepted(verdict: *const Verdict) -> i32;
    fn gog_sentence(code: u32, first: u64, second: u64, text: *mut u8, room: usize) -> usize;
    fn gog_version() -> *const u8;
    fn gog_least_of_age(floor: u64, now: u64, max_age: u64, least: *mut u64, asked: *mut u64) -> i32;
    fn gog_refuse_ahead(verdict: *mut Verdict, now: u64) -> u32;
}

pub fn version() -> String {
    // SAFETY: the call returns a text of the library's own, closed by a 0, that lives as long as the program
    let text = unsafe { std::ffi::CStr::from_ptr(gog_version().cast()) };
    text.to_string_lossy().into_owned()
}

pub fn route(
    key: &[u8; KEY_OCTETS], chain: &[u8], reply: &[u8], from: u32, to: u32, least: u64, simple: bool,
) -> Result<(Vec<Node>, Verdict), Refused> {
    let mut room = vec![Node { id: 0, x: 0, y: 0 }; MOST_NODES];
    let mut verdict = Verdict::none();
    // SAFETY: each slice is valid for its length; the buffer and the verdict are borrowed only here, and have C's
    // layout
    let code = unsafe {
        gog_check_route(
            key.as_ptr(), key.len(), chain.as_ptr(), chain.len(), reply.as_ptr(), reply.len(), from, to, least,
            u32::from(simple), room.as_mut_ptr(), room.len(), &mut verdict,
        )
    };
    judged(code, verdict, room, NO_ROUTE)
}

pub fn reach(
    key: &[u8; KEY_OCTETS], chain: &[u8], reply: &[u8], from: u32, radius: u64, least: u64,
) -> Result<(Vec<ReachedNode>, Verdict), Refused> {
    let mut room = vec![ReachedNode { id: 0, x: 0, y: 0, distance: 0 }; MOST_NODES];
    let mut verdict = Verdict::none();
    // SAFETY: as above
    let code = unsafe {
        gog_check_reach(
            key.as_ptr(), key.len(), chain.as_ptr(), chain.len(), reply.as_ptr(), reply.len(), from, radius, least,
            room.as_mut_ptr(), room.len(), &mut verdict,
        )
    };
    judged(code, verdict, room, ACCEPTED)
}

/// Returns the least versions to check with and to request, or `None` if the clock is wrong.
pub fn least_of_age(floor: u64, now: u64, max_age: u64) -> Option<(u64, u64)> {
    let (mut least, mut asked) = (u64::MAX, u64::MAX);
    // SAFETY: both numbers are borrowed only here
    let is_right = unsafe { gog_least_of_age(floor, now, max_age, &mut least, &mut asked) } == 1;
    is_right.then_some((least, asked))
}

pub fn refuse_ahead(verdict: &mut Verdict, now: u64) -> u32 {
    // SAFETY: the verdict is one whole struct with C's layout, borrowed only here
    unsafe { gog_refuse_ahead(verdict, now) }
}

/// A query for the nodes within a radius: the listed ids, and how many nodes are wanted.
pub struct Asked<'a> {
    pub from: u32,
    pub radius: u64,
    pub ids: &'a [u32],
    pub count: usize,
}

pub fn nearest(
    key: &[u8; KEY_OCTETS], chain: &[u8], reply: &[u8], asked: &Asked<'_>, least: u64,
) -> Result<(Vec<ReachedNode>, Verdict), Refused> {
    let mut room = vec![ReachedNode { id: 0, x: 0, y: 0, distance: 0 }; asked.count.min(MOST_NODES)];
    let mut verdict = Verdict::none();
    // SAFETY: as above
    let code = unsafe {
        gog_nearest(
            key.as_ptr(), key.len(), chain.as_ptr(), chain.len(), reply.as_ptr(), reply.len(), asked.from, asked.radius,
            least, asked.ids.as_ptr(), asked.ids.len(), room.as_mut_ptr(), room.len(), &mut verdict,
        )
    };
    judged(code, verdict, room, NONE_WITHIN)
}

/// Returns the nodes that a verdict accepts, as many as fit, or why it accepts none. `none` is the code with which the
/// call accepts without a node.
fn judged<T>(code: u32, verdict: Verdict, mut room: Vec<T>, none: u32) -> Result<(Vec<T>, Verdict), Refused> {
    // SAFETY: the verdict is one whole struct with C's layout
    let accepts = unsafe { gog_accepted(&verdict) } == 1 && code == verdict.code;
    let count = usize::try_from(verdict.count).unwrap_or(usize::MAX);
    let is_known = code == ACCEPTED || code == none;
    if !accepts || !is_known || count > MOST_NODES {
        return Err(refused(if code > NO_ROUTE { code } else { 0 }, &verdict));
    }
    room.truncate(count);
    room.shrink_to_fit();
    Ok((room, verdict))
}

pub fn refused(code: u32, verdict: &Verdict) -> Refused {
    let mut text = [0; SENTENCE];
    // SAFETY: the buffer is borrowed only here
    unsafe { gog_sentence(code, verdict.first, verdict.second, text.as_mut_ptr(), text.len()) };
    let (sentence, line) = (text_of(&text), text_of(&verdict.line));
    let line = line.trim_end_matches('\n').to_string();
    Refused { kind: Kind::of(code), code, first: verdict.first, second: verdict.second, sentence, line }
}

/// Returns the text before the first 0.
fn text_of(octets: &[u8]) -> String {
    let text = octets.split(|octet| *octet == 0).next().unwrap_or_default();
    String::from_utf8_lossy(text).into_owned()
}
