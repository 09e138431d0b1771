//! Offers and answers of browsers.

use crate::ends::End;
use crate::error::{Reason, code};
use crate::params::Direction;
use crate::refused::{EndError, done};
use crate::sys;
use std::ptr;

/// What an end wants of a section of a browser's offer.
///
/// ```
/// # use jilqamur::{Kind, Section, Setup, Transport};
/// use jilqamur::{Direction, End, SectionRequest};
/// # let mut browser = End::builder().codec("opus", 111).session(1).build()?;
/// # let direction = Direction::SendRecv;
/// # let audio = Section { mid: "0", kind: Kind::Audio, direction, ssrcs: &[44], repairs: &[] };
/// # let offered = browser.offer(&[audio])?;
/// # let transport = Transport {
/// #     ufrag: "F7gI", password: "x9cml/YzichV2+XlhiMu8g", hash: "sha-256", digest: &[0x5a; 32],
/// #     setup: Setup::ActPass, is_lite: false,
/// # };
/// # let offer = browser.for_browser(&offered, &transport)?;
/// let mut end = End::builder().codec("opus", 111).session(2).build()?;
/// let request = SectionRequest::Accept { direction: Direction::RecvOnly, ssrcs: &[], repairs: &[] };
/// end.answer_browser(&offer, &[request])?;
/// assert_eq!(end.agreed_sections()[0].ssrcs, [44]); // the browser sends under it
/// # Ok::<(), jilqamur::EndError>(())
/// ```
#[derive(Clone, Copy, Debug)]
pub enum SectionRequest<'a> {
    /// The end answers the section.
    Accept {
        /// Which way media shall flow, as the end sees it.
        direction: Direction,
        /// The SSRCs that the end sends under.
        ssrcs: &'a [u32],
        /// Pairs of one of them and the SSRC under which its datagrams are sent again (RFC 4588 8.3).
        repairs: &'a [(u32, u32)],
    },
    /// The section is rejected, as one without a request is.
    Reject,
}

/// The part of an end in the connection (RFC 8842 5).
///
/// ```
/// use jilqamur::Setup;
/// assert_eq!(Setup::ActPass as u8, 0);
/// ```
#[derive(Clone, Copy, Debug, PartialEq, Eq)]
pub enum Setup {
    /// It is left open, as each offer does.
    ActPass,
    /// This end opens the connection.
    Active,
    /// This end waits for it.
    Passive,
}

impl Setup {
    fn of(number: u8) -> Setup {
        match number {
            1 => Setup::Active,
            2 => Setup::Passive,
            _ => Setup::ActPass,
        }
    }
}

/// The transport of an end as a browser is told of it; candidates come later (RFC 8840).
///
/// ```
/// # use jilqamur::{Kind, Section};
/// use jilqamur::{Direction, End, Setup, Transport, SectionRequest};
/// # let mut browser = End::builder().codec("opus", 111).session(1).build()?;
/// # let direction = Direction::SendRecv;
/// # let audio = Section { mid: "0", kind: Kind::Audio, direction, ssrcs: &[44], repairs: &[] };
/// # let offered = browser.offer(&[audio])?;
/// # let transport = Transport {
/// #     ufrag: "F7gI", password: "x9cml/YzichV2+XlhiMu8g", hash: "sha-256", digest: &[0x5a; 32],
/// #     setup: Setup::ActPass, is_lite: false,
/// # };
/// # let offer = browser.for_browser(&offered, &transport)?;
/// # let mut end = End::builder().codec("opus", 111).session(2).build()?;
/// let request = SectionRequest::Accept { direction: Direction::RecvOnly, ssrcs: &[], repairs: &[] };
/// let answer = end.answer_browser(&offer, &[request])?;
/// let transport = Transport {
///     ufrag: "K7Q2",
///     password: "p1bYWCCmXlTzO4uD0mJ3rQ",
///     hash: "sha-256",
///     digest: &[0xa5; 32],
///     setup: Setup::Passive,
///     is_lite: false,
/// };
/// assert!(end.for_browser(&answer, &transport)?.contains("a=setup:passive"));
/// # Ok::<(), jilqamur::EndError>(())
/// ```
#[derive(Clone, Copy, Debug)]
pub struct Transport<'a> {
    /// The name of ICE (RFC 8839 5.4): 4 to 256 letters, digits, `+` and `/`.
    pub ufrag: &'a str,
    /// The password of ICE: 22 to 256 of them.
    pub password: &'a str,
    /// The hash function of the certificate's fingerprint, as `sha-256` (RFC 8122 5).
    pub hash: &'a str,
    /// The digest of the certificate.
    pub digest: &'a [u8],
    /// `ActPass` in an offer; in an answer one of the others, as in each answer before.
    pub setup: Setup,
    /// Whether the end only answers connectivity checks (RFC 8839 5.3).
    pub is_lite: bool,
}

/// What a browser's last text tells of its transport.
///
/// ```
/// # use jilqamur::{Kind, Section, Transport};
/// use jilqamur::{Direction, End, Setup, SectionRequest};
/// # let mut browser = End::builder().codec("opus", 111).session(1).build()?;
/// # let direction = Direction::SendRecv;
/// # let audio = Section { mid: "0", kind: Kind::Audio, direction, ssrcs: &[44], repairs: &[] };
/// # let offered = browser.offer(&[audio])?;
/// # let transport = Transport {
/// #     ufrag: "F7gI", password: "x9cml/YzichV2+XlhiMu8g", hash: "sha-256", digest: &[0x5a; 32],
/// #     setup: Setup::ActPass, is_lite: false,
/// # };
/// # let offer = browser.for_browser(&offered, &transport)?;
/// # let mut end = End::builder().codec("opus", 111).session(2).build()?;
/// # let request = SectionRequest::Accept { direction: Direction::RecvOnly, ssrcs: &[], repairs: &[] };
/// end.answer_browser(&offer, &[request])?;
/// let remote = end.remote()?;
/// assert_eq!((remote.ufrag.as_deref(), remote.setup), (Some("F7gI"), Some(Setup::ActPass)));
/// # Ok::<(), jilqamur::EndError>(())
/// ```
#[derive(Clone, Debug, PartialEq, Eq)]
pub struct Remote {
    /// The name of ICE.
    pub ufrag: Option<String>,
    /// The password of ICE.
    pub password: Option<String>,
    /// The preferred fingerprint of its certificate: a hash function, and the digest in hex with colons.
    pub fingerprint: Option<String>,
    /// Its part in the connection.
    pub setup: Option<Setup>,
    /// The part of this end, once that was answered.
    pub own_setup: Option<Setup>,
    /// Its candidates, each `candidate:` and what follows (RFC 8839 5.1).
    pub candidates: Vec<String>,
    /// Whether further candidates may come later.
    pub is_trickling: bool,
    /// Whether it only answers connectivity checks.
    pub is_lite: bool,
}

/// A text that a call copies, if it is there: for its size first, and then its bytes.
fn text_of(mut call: impl FnMut(*mut u8, usize, &mut usize) -> u32) -> Result<Option<String>, EndError> {
    let mut needed = 0;
    match call(ptr::NonNull::dangling().as_ptr(), 0, &mut needed) {
        code::NOTHING => return Ok(None),
        code::OK | code::TOO_SMALL => {}
        answer => return Err(EndError::new(Reason::of(answer), None)),
    }
    let mut bytes = vec![0; needed];
    done(call(bytes.as_mut_ptr(), bytes.len(), &mut needed))?;
    Ok(Some(String::from_utf8_lossy(&bytes).into_owned()))
}

impl End {
    fn requests(&mut self, requests: &[SectionRequest<'_>]) -> Result<(), EndError> {
        let gathered = requests.iter().try_for_each(|request| self.request(request));
        if gathered.is_err() {
            // An answer to no text is refused, and uses up what was gathered.
            // SAFETY: the handle is open, and no byte is read.
            unsafe { sys::jilqamur_end_answer_browser(self.0.raw(), ptr::NonNull::dangling().as_ptr(), 0) };
        }
        gathered
    }

    fn request(&mut self, request: &SectionRequest<'_>) -> Result<(), EndError> {
        let (is_accepted, direction, ssrcs, repairs) = match *request {
            SectionRequest::Accept { direction, ssrcs, repairs } => (true, direction, ssrcs, repairs),
            SectionRequest::Reject => (false, Direction::Inactive, &[][..], &[][..]),
        };
        let (sends, receives) = direction.flow();
        self.repairs(repairs)?;
        // SAFETY: the handle is open, and pointer and length are those of one slice.
        done(unsafe {
            sys::jilqamur_end_request(self.0.raw(), is_accepted, sends, receives, ssrcs.as_ptr(), ssrcs.len())
        })
    }

    /// The text of the end's answer to a browser's offer, by a request for each section, in order (RFC 8829 5.3.1):
    /// [`End::for_browser`] makes it one for the browser. The end never sees sections of data, of port 0 or without a
    /// request, nor those that have no row in common with it (RFC 3264 6).
    ///
    /// # Errors
    /// `NotMade`; else the first that holds of `TextUnreadable`, `RestUnread`, `MidNotKept`, `MidTwice`,
    /// `SeveralBundles`, `OutsideBundle`, `NothingLeft` and `KeysAlone`; else `OutOfRange` if the repairs of a request
    /// aren't sound; else those of [`End::answer`]. All is unchanged.
    pub fn answer_browser(&mut self, offer: &str, requests: &[SectionRequest<'_>]) -> Result<String, EndError> {
        self.requests(requests)?;
        // SAFETY: the handle is open, and pointer and length are those of one slice.
        done(unsafe { sys::jilqamur_end_answer_browser(self.0.raw(), offer.as_ptr(), offer.len()) })?;
        Ok(self.text())
    }

    /// Takes the text of a browser's answer to the pending offer.
    ///
    /// # Errors
    /// `NotMade`; else the first that holds of `TextUnreadable`, `RestUnread`, `MidNotKept`, `MidTwice`,
    /// `NotCorresponding`, `SectionRejected`, `SeveralBundles`, `OutsideBundle`, `NothingLeft` and `KeysAlone`; else
    /// those of [`End::accept`]. All is unchanged.
    pub fn accept_browser(&mut self, answer: &str) -> Result<(), EndError> {
        // SAFETY: the handle is open, and pointer and length are those of one slice.
        done(unsafe { sys::jilqamur_end_accept_browser(self.0.raw(), answer.as_ptr(), answer.len()) })
    }

    /// Takes the payload types of the agreed sections from a text, each from the section of its name: streams that are
    /// opened from then on have the types, those of retransmissions and those of redundancy that this section lists.
    /// Hand it what [`End::for_browser`] makes of an answer, and a browser's answer after [`End::accept_browser`]: a
    /// section may list fewer types than others.
    ///
    /// # Errors
    /// `NotMade`, `TextUnreadable` or `Memory`; nothing has changed.
    pub fn take_types(&mut self, text: &str) -> Result<(), EndError> {
        // SAFETY: the handle is open, and pointer and length are those of one slice.
        done(unsafe { sys::jilqamur_end_take_types(self.0.raw(), text.as_ptr(), text.len()) })
    }

    /// An offer's or an answer's text of this end, made one for the browser: what was taken out of the browser's offer
    /// is back in its place, rejected, and each other section has the lines of the transport. A section that is new in
    /// an offer has the first place that an earlier exchange left with port 0, or else follows after all places.
    ///
    /// # Errors
    /// The first that holds of `TextUnreadable`, `RestUnread`, `UfragNotFit`, `PasswordNotFit`, `SetupNotFit`,
    /// `NotCorresponding` and `NotWritable`; or `Memory`. All is unchanged.
    pub fn for_browser(&mut self, text: &str, transport: &Transport<'_>) -> Result<String, EndError> {
        let Transport { ufrag, password, hash, digest, setup, is_lite } = *transport;
        // SAFETY: the handle is open, and pointers and lengths are those of one slice each.
        done(unsafe {
            sys::jilqamur_end_for_browser(
                self.0.raw(),
                text.as_ptr(),
                text.len(),
                setup as u8,
                is_lite,
                ufrag.as_ptr(),
                ufrag.len(),
                password.as_ptr(),
                password.len(),
                hash.as_ptr(),
                hash.len(),
                digest.as_ptr(),
                digest.len(),
            )
        })?;
        Ok(self.text())
    }

    fn remote_text(&self, part: u8) -> Result<Option<String>, EndError> {
        text_of(|buffer, len, needed| {
            // SAFETY: the handle is open, and pointer and length are those of one slice.
            unsafe { sys::jilqamur_end_remote_text(self.0.raw(), part, buffer, len, needed) }
        })
    }

    fn remote_candidate(&self, index: usize) -> Result<String, EndError> {
        let text = text_of(|buffer, len, needed| {
            // SAFETY: the handle is open, and pointer and length are those of one slice.
            unsafe { sys::jilqamur_end_remote_candidate(self.0.raw(), index, buffer, len, needed) }
        })?;
        Ok(text.unwrap_or_default())
    }

    /// What the browser's last text tells of its transport.
    ///
    /// # Errors
    /// `Memory`.
    pub fn remote(&self) -> Result<Remote, EndError> {
        let mut parts = sys::RemoteParts::default();
        // SAFETY: the handle is open, and what is written is a place of its own.
        unsafe { sys::jilqamur_end_remote(self.0.raw(), &mut parts) };
        let candidates = (0..parts.candidates).map(|index| self.remote_candidate(index));
        let candidates = candidates.collect::<Result<_, _>>()?;
        Ok(Remote {
            ufrag: self.remote_text(0)?,
            password: self.remote_text(1)?,
            fingerprint: self.remote_text(2)?,
            setup: parts.has_setup.then(|| Setup::of(parts.setup)),
            own_setup: parts.has_own_setup.then(|| Setup::of(parts.own_setup)),
            candidates,
            is_trickling: parts.is_trickling,
            is_lite: parts.is_lite,
        })
    }
}
