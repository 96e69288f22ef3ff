//! The crate's own answers on replies: what 20 to 22 and 27 answer, and what it reads of what 23 to 25 wrote.
//!
//! The crate decides by the status whether a failure is a routing error, where ours is told. So a failed status is in
//! the domain where what we are told is what the crate decides; on success neither looks. An input is in the domain up
//! to 65,535 bytes. There the crate has to accept exactly what document 01 accepts.

use super::paths::{Did, LONGEST_RECORD};
use crate::case::fields::Take;
use crate::case::replies::{Body, Forward, Ids, Reply, Status};
use crate::case::{digits, undigits};
use crate::{dec, guard, Dec, Decode, Decoder, Either, OracleError};
use rseip_cip::codec::decode::message_reply::decode_service_and_status;
use rseip_cip::connection::{ForwardCloseReply, ForwardOpenReply, ForwardRequestFail};

/// What the crate did with a reply that is not to be compared.
#[derive(Clone, Copy, PartialEq, Eq, PartialOrd, Ord, Debug)]
pub struct Beside {
    pub did: Did,
    /// we were told the same as the crate decides, or neither looks
    pub told_alike: bool,
}

fn did<R>(read: impl FnOnce() -> Result<R, OracleError>) -> Result<R, Did> {
    guard(read).map_err(|_| Did::Panicked)?.map_err(|e| Did::of(&e))
}

fn status(s: &rseip_cip::Status) -> Status {
    crate::case::replies::status(s.general, s.extended)
}

/// Service, status, and how many bytes are left behind the header.
fn header(input: &[u8]) -> Result<(u8, rseip_cip::Status, usize), Did> {
    let mut d = dec(input);
    let (service, status) = did(|| decode_service_and_status(&mut d))?;
    Ok((service, status, d.remaining()))
}

fn open(d: &mut Dec) -> Result<Forward, OracleError> {
    let r = ForwardOpenReply::decode(d)?.0;
    let body = match r.data {
        Either::Left(s) => Body::Open {
            o_t_id: s.o_t_connection_id,
            t_o_id: s.t_o_connection_id,
            ids: ids(s.connection_serial_number, s.originator_vendor_id, s.originator_serial_number),
            o_t_api: s.o_t_api,
            t_o_api: s.t_o_api,
            data: s.app_data.to_vec(),
        },
        Either::Right(f) => failure(&f),
    };
    Ok(Forward { service: r.reply_service, status: status(&r.status), body })
}

fn close(d: &mut Dec) -> Result<Forward, OracleError> {
    let r = ForwardCloseReply::decode(d)?.0;
    let body = match r.data {
        Either::Left(s) => Body::Close {
            ids: ids(s.connection_serial_number, s.originator_vendor_id, s.originator_serial_number),
            data: s.app_data.to_vec(),
        },
        Either::Right(f) => failure(&f),
    };
    Ok(Forward { service: r.reply_service, status: status(&r.status), body })
}

fn ids(serial: u16, vendor: u16, originator: u32) -> Ids {
    Ids { serial, vendor, originator }
}

fn failure(f: &ForwardRequestFail) -> Body {
    let ids = ids(f.connection_serial_number, f.originator_vendor_id, f.originator_serial_number);
    Body::Failure { ids, flag: u8::from(f.remaining_path_size.is_some()), remaining: f.remaining_path_size.unwrap_or(0) }
}

/// The reply that 21 or 22 is given, and how many bytes are left behind it.
fn forward(op: u8, input: &[u8]) -> Result<(Forward, usize), Did> {
    let mut d = dec(input);
    let read = did(|| if op == 0x21 { open(&mut d) } else { close(&mut d) })?;
    Ok((read, d.remaining()))
}

/// Every answer line here is made from what the crate read and from where its cursor stood.
fn line(r: &Reply) -> Result<Vec<u8>, Did> {
    if r.op != 0x20 {
        let (read, left) = forward(r.op, &r.input)?;
        return Ok(read.answer(r.input.len() - left - read.data().len()));
    }
    let (service, s, left) = header(&r.input)?;
    Ok(header_answer(service, &s, r.input.len() - left, left))
}

/// What was read of a header, and where its data lies.
pub fn header_answer(service: u8, s: &rseip_cip::Status, start: usize, len: usize) -> Vec<u8> {
    let s = status(s);
    let mut a = vec![0, service, s.general, s.words];
    a.extend(s.word.to_le_bytes());
    a.extend([start as u32, len as u32].map(u32::to_le_bytes).concat());
    digits(&a)
}

/// The answer line of 20, 21 or 22; Err where the crate does not accept, or the case is not in the domain.
pub fn answer(r: &Reply) -> Result<Vec<u8>, Beside> {
    // who can't read the header has no status to look at
    let told_alike = r.op == 0x20 || header(&r.input).map_or(true, |(_, s, _)| s.is_ok() || said(&s) == r.routing);
    match line(r) {
        Ok(a) if told_alike && r.input.len() <= LONGEST_RECORD => Ok(a),
        other => Err(Beside { did: other.err().unwrap_or(Did::Accepted), told_alike }),
    }
}

fn said(s: &rseip_cip::Status) -> u8 {
    u8::from(s.is_routing_error())
}

/// The FLAG of 27, as the crate decides it.
pub fn routing(s: &Status) -> u8 {
    said(&rseip_cip::Status { general: s.general, extended: (s.words == 1).then_some(s.word) })
}

/// The answer line of 27; None where no status has so many words.
pub fn routing_answer(s: &Status) -> Option<Vec<u8>> {
    (s.words < 2).then(|| digits(&[0, routing(s)]))
}

/// What the crate reads of what our writer wrote, for the case of 23 to 25 that it was given: Ok where it is that very
/// reply, with nothing behind it. None where ours wrote nothing, or the crate decides otherwise than the case.
pub fn read_back(given: &Forward, ours: &[u8]) -> Option<Result<(), String>> {
    let bytes = undigits(ours)?;
    let mut t = Take(&bytes);
    if t.u8()? != 0 {
        return None;
    }
    let size = t.u32()? as usize;
    let wrote = t.0.get(..size)?;
    if matches!(given.body, Body::Failure { flag, .. } if flag != routing(&given.status)) {
        return None;
    }
    let want = (given.used(), 0);
    let other = given.readers().iter().map(|op| forward(*op, wrote)).find(|read| read.as_ref() != Ok(&want));
    Some(other.map_or(Ok(()), |read| Err(format!("{read:02X?}"))))
}
