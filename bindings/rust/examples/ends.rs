//! Reads lines of rtplines over two ends, a and b, and prints what rtplines prints: rows, ends, offers and answers,
//! streams, samples, datagrams and units. `fixed`, `connect`, `queue` and `play` are not among them.

use jilqamur::{Direction, End, EndError, Kind, MIN_HELD, Reason, Received, Row, Section, StreamParams, Unit};
use std::io::{self, BufRead};

type Said = Result<String, Box<dyn std::error::Error>>;

fn from_hex(text: &str) -> Vec<u8> {
    let digits = text.as_bytes();
    digits.chunks_exact(2).filter_map(|pair| u8::from_str_radix(std::str::from_utf8(pair).ok()?, 16).ok()).collect()
}

fn hex(bytes: &[u8]) -> String {
    bytes.iter().map(|byte| format!("{byte:02x}")).collect()
}

fn text_of(hex: &str) -> Result<String, std::string::FromUtf8Error> {
    String::from_utf8(from_hex(hex))
}

fn given(word: &str) -> Option<&str> {
    (word != "-").then_some(word)
}

fn row(end: &mut End, words: &[&str]) -> Said {
    let mut row = Row::new(words[0].parse()?, words[4].parse()?);
    if let Some(resend) = given(words[1]) {
        row = row.with_resend(resend.parse()?);
    }
    if let Some(red) = given(words[2]) {
        row = row.with_red(red.parse()?);
    }
    if let Some(channels) = given(words[5]) {
        row = row.with_channels(channels.parse()?);
    }
    end.row(&row, words[3], given(words[6]).unwrap_or(""))?;
    Ok("ok".into())
}

/// The SSRCs of a section, and the pairs of one of them and that of its repairs.
type Sources = (Vec<u32>, Vec<(u32, u32)>);

/// MID:KIND:DIRECTION:SOURCE,SOURCE, each SSRC or SSRC+REPAIR, with the sources in lists of their own.
fn section<'a>(word: &'a str, sources: &'a mut Sources) -> Result<Section<'a>, Box<dyn std::error::Error>> {
    let parts: Vec<&str> = word.split(':').collect();
    let [mid, kind, direction, named] = parts[..] else {
        return Err("a section has four parts".into());
    };
    for source in named.split(',') {
        let (ssrc, repair) = source.split_once('+').map_or((source, None), |(ssrc, repair)| (ssrc, Some(repair)));
        sources.0.push(ssrc.parse()?);
        if let Some(repair) = repair {
            sources.1.push((ssrc.parse()?, repair.parse()?));
        }
    }
    let direction = match direction {
        "sendrecv" => Direction::SendRecv,
        "sendonly" => Direction::SendOnly,
        "recvonly" => Direction::RecvOnly,
        _ => Direction::Inactive,
    };
    let kind = if kind == "video" { Kind::Video } else { Kind::Audio };
    Ok(Section { mid, kind, direction, ssrcs: &sources.0, repairs: &sources.1 })
}

fn exchange(end: &mut End, offer: Option<&str>, words: &[&str]) -> Said {
    let mut sources = vec![Sources::default(); words.len()];
    let sections =
        words.iter().zip(&mut sources).map(|(word, named)| section(word, named)).collect::<Result<Vec<_>, _>>()?;
    let text = match offer {
        None => end.offer(&sections)?,
        Some(offer) => end.answer(&text_of(offer)?, &sections)?,
    };
    Ok(format!("text {}", hex(text.as_bytes())))
}

fn send(end: &mut End, words: &[&str]) -> Said {
    let mut params = StreamParams::new(words[3].parse()?, words[4].parse()?, words[5].parse()?);
    let mut distances = None;
    if let Some(given) = given(words[6]) {
        distances = Some(given.split(',').map(str::parse).collect::<Result<Vec<u8>, _>>()?);
    }
    if let Some(id) = given(words[7]) {
        params = params.with_picture_id(id.parse()?);
    }
    let (ssrc, payload_type) = (words[1].parse()?, words[2].parse()?);
    let stream = end.open_sender(words[0], ssrc, payload_type, params, distances.as_deref())?;
    Ok(format!("sender {stream}"))
}

fn open(end: &mut End, words: &[&str]) -> Said {
    let (ssrc, payload_type, hold_back) = (words[1].parse()?, words[2].parse()?, words[3].parse()?);
    let held = words.get(4).map_or(Ok(MIN_HELD), |word| word.parse())?;
    let stream = end.open_receiver(words[0], ssrc, payload_type, hold_back, held)?;
    Ok(format!("receiver {stream}"))
}

fn sample(end: &mut End, words: &[&str]) -> Said {
    let mid = words.get(3).and_then(|word| word.strip_prefix("mid="));
    let datagrams = end.push_sample(words[0].parse()?, words[1].parse()?, &from_hex(words[2]), mid)?;
    let lines: String = datagrams.map(|datagram| format!("datagram {}\n", hex(&datagram))).collect();
    Ok(lines + "ok")
}

fn receive(end: &mut End, datagram: &[u8]) -> Said {
    Ok(match end.receive(datagram)? {
        Received::Unreadable => "unreadable".into(),
        Received::Foreign => "foreign".into(),
        Received::Damaged => "damaged".into(),
        Received::Refused => "refused".into(),
        Received::Taken(stream, number) => format!("taken {stream} {number}"),
    })
}

fn poll(end: &mut End, stream: usize) -> Said {
    match end.poll(stream) {
        Ok(None) => Ok("none".into()),
        Ok(Some(Unit { first, last, time, bytes, .. })) => Ok(format!("unit {first} {last} {time} {}", hex(&bytes))),
        Err(refused) if refused.reason() == Reason::Payload => Ok("fault Payload".into()),
        Err(refused) => Err(refused.into()),
    }
}

fn answer(end: &mut End, verb: &str, words: &[&str]) -> Said {
    match verb {
        "row" => return row(end, words),
        "ext" => end.extension(words[0].parse()?, words[1])?,
        "end" => end.make(words[0].parse()?)?,
        "offer" => return exchange(end, None, words),
        "answer" => return exchange(end, Some(words[0]), &words[1..]),
        "accept" => end.accept(&text_of(words[0])?)?,
        "withdraw" if !end.withdraw() => return Ok("none".into()),
        "withdraw" => {}
        "send" => return send(end, words),
        "open" => return open(end, words),
        "sample" => return sample(end, words),
        "repair" => {
            let repair = end.repair(words[0].parse()?, &from_hex(words[1]))?;
            return Ok(format!("datagram {}", hex(&repair)));
        }
        "receive" => return receive(end, &from_hex(words[0])),
        "poll" => return poll(end, words[0].parse()?),
        _ => return Err("no such line".into()),
    }
    Ok("ok".into())
}

fn main() -> Result<(), Box<dyn std::error::Error>> {
    let (mut a, mut b) = (End::new()?, End::new()?);
    for line in io::stdin().lock().lines() {
        let line = line?;
        let words: Vec<&str> = line.split(' ').collect();
        let end = if words[1] == "a" { &mut a } else { &mut b };
        match answer(end, words[0], &words[2..]) {
            Ok(said) => println!("{said}"),
            Err(error) => match error.downcast_ref().map(EndError::reason) {
                Some(Reason::OutOfRange | Reason::NotMade | Reason::NoStream) | None => println!("error line"),
                Some(Reason::TextUnreadable) => println!("refused Unreadable"),
                Some(reason) => println!("refused {reason:?}"),
            },
        }
    }
    Ok(())
}
