//! Refusals say why, and what about.

use jilqamur::{
    Direction, End, EndError, Fault, Format, ForwardedPacket, Kind, MIN_HELD, Packetizer, PacketizerParams, Place,
    Reason, Row, Section, SectionRequest, Sender, SenderParams, StreamParams, Values,
};

fn row(codec: &str, payload_type: u8) -> Place {
    Place::Row { codec: codec.into(), payload_type }
}

fn refused(made: Result<End, EndError>) -> (Reason, Option<Place>) {
    let error = made.expect_err("it is refused");
    (error.reason(), error.place().cloned())
}

#[test]
fn a_builder_names_the_row_or_the_extension() {
    let twice = End::builder().codec("opus", 111).codec("PCMU", 0).codec("VP8", 111).build();
    assert_eq!(refused(twice), (Reason::TypesNotDistinct, Some(row("VP8", 111))));
    let odd_rate = End::builder().codec("opus", 111).row(Row::new(9, 44_100), "G722", "").build();
    assert_eq!(refused(odd_rate), (Reason::RowNotPlain, Some(row("G722", 9))));
    let no_rate = End::builder().row(Row::new(9, 0), "G722", "").build();
    assert_eq!(refused(no_rate), (Reason::OutOfRange, Some(row("G722", 9))));
    let unknown = End::builder().codec("opus", 111).codec("vorbis", 98).codec("flac", 99).build();
    assert_eq!(refused(unknown), (Reason::OutOfRange, Some(row("vorbis", 98))));
    let of = |id, uri: &str| Some(Place::Extension { id, uri: uri.into() });
    let no_id = End::builder().extension(17, "urn:a").build();
    assert_eq!(refused(no_id), (Reason::OutOfRange, of(17, "urn:a")));
    let blank = End::builder().codec("opus", 111).extension(1, "urn:a").extension(2, "urn:b c").build();
    assert_eq!(refused(blank), (Reason::NotWritable, of(2, "urn:b c")));
}

#[test]
fn sections_and_streams_are_named() -> Result<(), EndError> {
    let mut end = End::builder().codec("opus", 111).build()?;
    let section = |mid, kind| Section { mid, kind, direction: Direction::SendRecv, ssrcs: &[44], repairs: &[] };
    let no_row = end.offer(&[section("v", Kind::Video)]).expect_err("there is no row of video");
    assert_eq!(no_row.to_string(), "a section would list no row (section v)");
    let no_stream = end.sender(7).push_sample(0, &[1]).map(|_| ()).expect_err("no stream has this number");
    assert_eq!(no_stream.to_string(), "no such stream is open (stream 7)");
    assert_eq!(end.receiver(3).poll().expect_err("the same").place(), Some(&Place::Stream(3)));
    let no_section = end.open_receiver("0", 44, 111, 2, MIN_HELD).expect_err("nothing is agreed");
    assert_eq!(no_section.to_string(), "no such section is agreed (section 0, SSRC 44, type 111)");
    let out_of_turn = end.accept("v=0\r\n").expect_err("no offer is pending");
    assert_eq!(out_of_turn.place(), None);
    Ok(())
}

#[test]
fn a_mid_that_would_be_changed_is_refused() -> Result<(), EndError> {
    for mid in ["abcdefghij_123456", "a-b", "a b", "\u{e4}", "a\n"] {
        let mut end = End::builder().codec("opus", 111).build()?;
        let section = Section { mid, kind: Kind::Audio, direction: Direction::SendRecv, ssrcs: &[44], repairs: &[] };
        let (named, opening) =
            (Place::Sections(vec![mid.into()]), Place::Opening { mid: mid.into(), ssrc: 44, payload_type: 111 });
        let packet = ForwardedPacket { number: 1, timestamp: 1, marker: false, payload: &[1] };
        let params = StreamParams::new(0, 1200, 1400);
        let refused = [
            (end.offer(&[section]).expect_err("it isn't kept"), &named),
            (end.answer("", &[section]).expect_err("it isn't kept"), &named),
            (end.open_sender(mid, 44, 111, params, None).expect_err("it isn't kept"), &opening),
            (end.open_receiver(mid, 44, 111, 2, MIN_HELD).expect_err("it isn't kept"), &opening),
            (end.open_unsignalled(mid, 44, 111, 2, MIN_HELD).expect_err("it isn't kept"), &opening),
            (end.push_sample(0, 0, &[1], Some(mid)).map(|_| ()).expect_err("it isn't kept"), &named),
            (end.send_packet(0, &packet, &Values::default(), Some(mid)).expect_err("it isn't kept"), &named),
        ];
        for (error, place) in &refused {
            assert_eq!((error.reason(), error.place()), (Reason::MidNotKept, Some(*place)));
        }
    }
    Ok(())
}

/// What a call gathered is used up when it is refused.
#[test]
fn a_refused_call_leaves_nothing() -> Result<(), EndError> {
    let mut end = End::builder().codec("opus", 111).build()?;
    let direction = Direction::SendRecv;
    let section = |mid, repairs| Section { mid, kind: Kind::Audio, direction, ssrcs: &[1], repairs };
    end.offer(&[section("x", &[(1, 2)]), section("a-b", &[])]).expect_err("the mid isn't kept");
    end.offer(&[section("x", &[(7, 8)])]).expect_err("the repairs aren't sound");
    end.answer("nothing", &[section("x", &[])]).expect_err("the text can't be read");
    let request = SectionRequest::Accept { direction, ssrcs: &[5], repairs: &[] };
    end.answer_browser("nothing", &[request]).expect_err("the text can't be read");
    let offer = end.offer(&[Section { ssrcs: &[], ..section("z", &[]) }])?;
    assert_eq!((offer.matches("a=mid:").count(), offer.matches("a=ssrc").count()), (1, 0));
    Ok(())
}

#[test]
fn an_mtu_of_0_is_refused() -> Result<(), Fault> {
    let mut packetizer = Packetizer::new("VP8", Format::new(90_000), PacketizerParams::new())?;
    assert_eq!(packetizer.packetize(0, &[1, 2]).map(|_| ()), Err(Fault::OutOfRange));
    assert!(packetizer.packetize(2, &[1, 2])?.count() > 0);
    Ok(())
}

#[test]
fn a_codec_without_a_payload_format_is_named() {
    let params = SenderParams::new(44, 111, 1200);
    let refused = Sender::new("flac", Format::new(48_000), params).expect_err("no payload format has this name");
    assert_eq!(refused.to_string(), "a number is out of range (codec flac)");
}
