//! Prints the crate's result for each case in a file, one line each: cases FILE. bindings/play_more.py writes the file,
//! with one case in each line of words: the query, the key and the chain in hex (`-` for none), from, end, least,
//! simple, the reply in hex, for the nearest nodes the listed ids (`-` for none) and how many are wanted, and, with an
//! age, the greatest age and a clock in seconds as the 11th and 12th words. With an age, the query `least` is the
//! version to request from a gateway, and `young` the meaning of its 503.
use gogbetiku::{key_of, Answer, Client, ReachedNode, Refused};
use std::error::Error;
use std::sync::atomic::{AtomicU64, Ordering};
use std::time::{Duration, SystemTime, UNIX_EPOCH};

static NOW: AtomicU64 = AtomicU64::new(0);

/// Returns the clock of a case.
fn clock() -> SystemTime {
    UNIX_EPOCH + Duration::from_secs(NOW.load(Ordering::Relaxed))
}

fn octets(text: &str) -> Result<Vec<u8>, Box<dyn Error>> {
    if text == "-" {
        return Ok(Vec::new());
    }
    let pairs = (0..text.len()).step_by(2);
    Ok(pairs.map(|at| u8::from_str_radix(&text[at..at + 2], 16)).collect::<Result<_, _>>()?)
}

fn told(case: &str) -> Result<String, Box<dyn Error>> {
    let words: Vec<&str> = case.split(' ').collect();
    let mut client = Client::new(&key_of(words[1])?, &octets(words[2])?);
    if words.len() > 11 {
        NOW.store(words[11].parse()?, Ordering::Relaxed);
        client = client.with_max_age(Duration::from_secs(words[10].parse()?), clock);
    }
    let (from, least, reply) = (words[3].parse()?, words[5].parse()?, octets(words[7])?);
    if words[0] == "least" {
        return Ok(client.least_to_ask(least).map_or_else(|why| refusal(&why), |asked| format!("asked {asked}")));
    }
    if words[0] == "young" {
        return Ok(client.none_young().map_or_else(String::new, |why| refusal(&why)));
    }
    if words[0] == "nearest" {
        let ids: Vec<u32> = words[8].split(',').filter(|id| *id != "-").map(str::parse).collect::<Result<_, _>>()?;
        return Ok(match client.nearest(&reply, from, words[4].parse()?, &ids, least, words[9].parse()?) {
            Ok(found) if found.inside == 0 => format!("19 {}", found.version),
            Ok(found) => format!("1 {} {}{}", found.version, found.inside, reached(&found.nodes)),
            Err(why) => refusal(&why),
        });
    }
    if words[0] == "reach" {
        return Ok(match client.check_reach(&reply, from, words[4].parse()?, least) {
            Ok(within) => format!("1 {} -{}", within.version, reached(&within.nodes)),
            Err(why) => refusal(&why),
        });
    }
    Ok(match client.check_route(&reply, from, words[4].parse()?, least, words[6] == "1") {
        Ok(Answer::Route(route)) => {
            let nodes: Vec<String> = route.nodes.iter().map(|node| format!("{},{},{}", node.id, node.x, node.y)).collect();
            format!("1 {} {} {}", route.version, route.length, nodes.join(" "))
        }
        Ok(Answer::NoRoute { version }) => format!("2 {version}"),
        Err(why) => refusal(&why),
    })
}

fn reached(nodes: &[ReachedNode]) -> String {
    nodes.iter().map(|node| format!(" {},{},{},{}", node.id, node.x, node.y, node.distance)).collect()
}

fn refusal(why: &Refused) -> String {
    format!("{} {} {} {:?}|{}|{}", why.code, why.first, why.second, why.kind, why.line, why)
}

fn main() -> Result<(), Box<dyn Error>> {
    let name = std::env::args().nth(1).ok_or("cases FILE")?;
    for case in std::fs::read_to_string(name)?.lines() {
        println!("{}", told(case)?);
    }
    Ok(())
}
