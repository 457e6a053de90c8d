//! What no case of bindings/play_more.py covers: keys, texts, and threads that share a client.
use gogbetiku::{key_of, library_version, Client, Kind, NoKey};

#[test]
fn keys_are_112_hex_digits() {
    assert_eq!(key_of(&format!(" {}\n", "0A".repeat(56))), Ok([10; 56]));
    for text in ["", "0a", &"0a".repeat(57), &"g".repeat(112), &"é".repeat(56), &"+1".repeat(56)] {
        assert_eq!(key_of(text), Err(NoKey), "{text}");
    }
    assert_eq!(NoKey.to_string(), "a public key has 112 hex digits");
}

#[test]
fn no_octets_are_refused_by_each_call() {
    let client = Client::new(&[0; 56], &[]);
    let route = client.check_route(&[], 1, 3, 0, false).unwrap_err();
    let reach = client.check_reach(&[], 1, 3, 0).unwrap_err();
    let nearest = client.nearest(&[], 1, 3, &[2, 1], 0, 1).unwrap_err();
    for refused in [route, reach, nearest] {
        assert_eq!((refused.kind, refused.code, refused.first), (Kind::Malformed, 4, 0));
        assert_eq!(refused.line, "refused Malformed 0");
        assert_eq!(refused.to_string(), "The octets are not a reply: the field at offset 0 cannot be read.");
    }
}

#[test]
fn no_chain_is_told_before_the_reply() {
    let client = Client::new(&[0; 56], b"no chain");
    assert_eq!(client.check_route(&[], 1, 3, 0, false).unwrap_err().kind, Kind::MalformedChain);
}

#[test]
fn threads_share_a_client() {
    let client = Client::new(&[0; 56], &[]);
    std::thread::scope(|scope| {
        for _ in 0..4 {
            scope.spawn(|| assert!(client.check_route(b"no reply", 1, 3, 0, true).is_err()));
        }
    });
}

#[test]
fn the_library_has_the_version_of_this_crate() {
    assert_eq!(library_version(), env!("CARGO_PKG_VERSION"));
}
