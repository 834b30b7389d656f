//! Feeds the self-delimited packets of standard input in pieces of 4,096 bytes, as they are read. With a word behind
//! its name it passes over them in steps of 200 bytes instead, which is what the program itself costs.
#![tactic(auto)]

use opus_feed::{Feed, Framing, Padding, Step};
use opus_io::{FromRead, Source};
use std::env;
use std::process::ExitCode;

fn main(rt: HostRuntime) -> ExitCode {
    let Ok(mut feed) = Feed::new(rt.alloc(), Framing::SelfDelimited, Padding::Drop) else {
        return ExitCode::from(5);
    };
    let passes = env::args(&rt).is_ok_and(|words| words.count() > 1);
    let mut source = FromRead::new(rt.stdin());
    let mut piece = [0; 4096];
    let mut packets = 0u64;
    for _ in 0..u64::MAX {
        let count = source.read(&mut piece).unwrap_or(0);
        if count == 0 {
            break;
        }
        let some = if passes {
            pass(&piece[..count])
        } else {
            take(&mut feed, &piece[..count])
        };
        packets = packets.saturating_add(some);
    }
    ExitCode::from((packets % 251) as u8)
}

// How many packets end in a piece.
fn take(feed: &mut Feed, piece: &[u8]) -> u64 {
    let mut rest = piece;
    let mut packets = 0u64;
    for _ in 0..piece.len() {
        let Step::Done(used) = feed.feed(rest) else {
            break;
        };
        feed.reset(Framing::SelfDelimited);
        packets = packets.saturating_add(1);
        rest = &rest[used..];
    }
    packets
}

// How many steps of 200 bytes a piece has.
fn pass(piece: &[u8]) -> u64 {
    let mut rest = piece;
    let mut packets = 0u64;
    for _ in 0..piece.len() {
        if rest.len() < 200 {
            break;
        }
        packets = packets.saturating_add(1);
        rest = &rest[200..];
    }
    packets
}
