//! A browser's call to the last line: answers each of the offers in the files that are named, and says after each which
//! sections are agreed and which streams are open.

use jilqamur::{
    AgreedSection, Direction, End, EndError, MIN_HELD, Reason, SectionRequest, Setup, StreamParams, Transport,
};
use std::collections::BTreeMap;
use std::error::Error;

/// A program has its own certificate, and draws ICE's words anew for each call.
const TRANSPORT: Transport<'_> = Transport {
    ufrag: "F7gI",
    password: "x9cml/YzichV2+XlhiMu8g",
    hash: "sha-256",
    digest: &[0x5a; 32],
    setup: Setup::Passive,
    is_lite: false,
};

/// The SSRC that the end sends under in a section, and the pair of it and the SSRC of its retransmissions.
type Sources = ([u32; 1], [(u32, u32); 1]);

/// A call: its end, and the SSRCs of the end by section. A program draws them at random.
struct Call {
    end: End,
    sources: BTreeMap<String, Sources>,
}

/// The sections of an offer: audio, video or application, and the mid.
fn sections(offer: &str) -> impl Iterator<Item = (&str, &str)> {
    offer.split("\nm=").skip(1).map(|section| {
        let kind = section.split(' ').next().unwrap_or_default();
        let mid = section.lines().find_map(|line| line.strip_prefix("a=mid:"));
        (kind, mid.unwrap_or_default())
    })
}

impl Call {
    fn new() -> Result<Call, EndError> {
        let mid = "urn:ietf:params:rtp-hdrext:sdes:mid";
        let end = End::builder().default_rows().extension(4, mid).session(1).build()?;
        Ok(Call { end, sources: BTreeMap::new() })
    }

    /// The answer for the browser: yes to audio and video in both directions, no to data.
    fn answer(&mut self, offer: &str) -> Result<String, EndError> {
        for (_, mid) in sections(offer) {
            let ssrc = 1000 + 2 * self.sources.len() as u32;
            self.sources.entry(mid.into()).or_insert(([ssrc], [(ssrc, ssrc + 1)]));
        }
        let request = |(kind, mid): (&str, &str)| {
            let (ssrcs, pairs) = &self.sources[mid];
            let repairs = if kind == "video" { &pairs[..] } else { &[] };
            match kind {
                "audio" | "video" => SectionRequest::Accept { direction: Direction::SendRecv, ssrcs, repairs },
                _ => SectionRequest::Reject,
            }
        };
        let requests: Vec<SectionRequest<'_>> = sections(offer).map(request).collect();
        let answer = self.end.answer_browser(offer, &requests)?;
        let text = self.end.for_browser(&answer, &TRANSPORT)?;
        self.end.take_types(&text)?; // streams go by what each section lists
        Ok(text)
    }

    /// Opens the streams that were agreed: those that are open already go on.
    fn open(&mut self) -> Result<(), EndError> {
        for AgreedSection { mid, direction, rows, ssrcs, .. } in self.end.agreed_sections() {
            println!("  section {mid}: {direction:?}");
            let Some((codec, row)) = rows.first() else { continue };
            if matches!(direction, Direction::SendOnly | Direction::SendRecv) {
                let own = self.sources[&mid].0[0];
                let params = StreamParams::new(1000, 1200, 1400).for_browsers();
                let sender = self.end.open_sender(&mid, own, row.payload_type(), params, None);
                say(&format!("send {codec} under {own}"), sender)?;
            }
            if matches!(direction, Direction::RecvOnly | Direction::SendRecv) {
                for ssrc in ssrcs {
                    let receiver = self.end.open_receiver(&mid, ssrc, row.payload_type(), 15, MIN_HELD);
                    say(&format!("receive {codec} under {ssrc}"), receiver)?;
                }
            }
        }
        Ok(())
    }
}

fn say(what: &str, opened: Result<usize, EndError>) -> Result<(), EndError> {
    match opened {
        Ok(stream) => println!("    {what}: stream {stream}"),
        Err(refused) if refused.reason() == Reason::AlreadyOpen => println!("    {what}: goes on"),
        Err(refused) if refused.reason() == Reason::SsrcNotNamed => {} // an SSRC of retransmissions needs no stream
        Err(refused) => return Err(refused),
    }
    Ok(())
}

/// The front of an `m=` line: port 0 rejects the section.
fn kind_and_port(line: &str) -> String {
    line.split(' ').take(2).collect::<Vec<&str>>().join(" ")
}

fn main() -> Result<(), Box<dyn Error>> {
    let mut call = Call::new()?;
    for (number, file) in std::env::args().skip(1).enumerate() {
        let text = call.answer(&std::fs::read_to_string(file)?)?;
        let ports = text.lines().filter(|line| line.starts_with("m=")).map(kind_and_port);
        println!("offer {}, answered with {}", number + 1, ports.collect::<Vec<String>>().join(", "));
        call.open()?;
    }
    Ok(())
}
