//! Answers a browser's offer, which it reads, of audio, video and data: what the browser gets, and what its offer tells
//! of its transport.

use jilqamur::{Direction, End, EndError, SectionRequest, Setup, Transport};
use std::io::{self, Read};

/// The digest of the certificate; a program has its own.
const DIGEST: [u8; 32] = [0x5a; 32];

/// A request for both ways, whose datagrams are sent again under another SSRC.
fn both_ways<'a>(ssrcs: &'a [u32], repairs: &'a [(u32, u32)]) -> SectionRequest<'a> {
    SectionRequest::Accept { direction: Direction::SendRecv, ssrcs, repairs }
}

fn end_of_defaults() -> Result<End, EndError> {
    let mut end = End::new()?;
    end.default_rows()?;
    end.extension(4, "urn:ietf:params:rtp-hdrext:sdes:mid")?;
    end.make(1)?;
    Ok(end)
}

fn main() -> Result<(), Box<dyn std::error::Error>> {
    let mut offer = String::new();
    io::stdin().read_to_string(&mut offer)?;
    let mut end = end_of_defaults()?;
    let answer = end.answer_browser(&offer, &[both_ways(&[44], &[]), both_ways(&[45], &[(45, 46)])])?;
    let transport = Transport {
        ufrag: "F7gI",
        password: "x9cml/YzichV2+XlhiMu8g",
        hash: "sha-256",
        digest: &DIGEST,
        setup: Setup::Passive,
        is_lite: false,
    };
    let text = end.for_browser(&answer, &transport)?;
    end.take_types(&text)?; // streams go by what each section lists
    print!("{text}");
    let remote = end.remote()?;
    println!("name {}", remote.ufrag.unwrap_or_default());
    println!("password {}", remote.password.unwrap_or_default());
    println!("fingerprint {}", remote.fingerprint.unwrap_or_default());
    for candidate in remote.candidates {
        println!("{candidate}");
    }
    Ok(())
}
