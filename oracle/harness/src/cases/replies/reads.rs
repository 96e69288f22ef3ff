//! Operations 20 to 22 on inputs of every kind: good replies, with one thing changed, with two, cut short, with more
//! behind them, and longer than a reply may be.

use super::*;
use crate::cases::bytes::{edges, every_change, every_pair, link, Fault};

pub fn fixed(to: &mut Sink) {
    short(to);
    for good in samples() {
        one_change(to, &good);
        every_pair(&faults(&good), &good, |d| ask_all(to, d));
    }
    // a header with and without a word, both successes, failures with 9 and 8 bytes, a success with a word
    for i in [0, 3, 5, 7, 8, 10, 16] {
        long(to, &samples()[i]);
    }
    bytes(to);
    numbers(to);
    word_counts(to);
    data_sizes(to);
    statuses(to);
}

/// Replies to be damaged: bare headers, both successes, failures with 8 and 9 bytes.
fn samples() -> Vec<Vec<u8>> {
    let mut v: Vec<Vec<u8>> = vec![
        vec![0x8E, 0, 0, 0],
        vec![0x8E, 0, 0, 0, 0xAA, 0xBB, 0xCC],
        // document 01's card
        vec![0x8E, 0, 8, 1, 3, 0],
        vec![0x8E, 0, 8, 1, 3, 0, 0xAA],
    ];
    v.extend(forwards().iter().map(|f| f.wire(0, 0)));
    // success with a word
    v.extend([some_open(&[1, 2]), some_close(&[1, 2])].map(|f| with(f, status(0, Some(0x0204))).wire(0x77, 0x99)));
    v
}

/// Every input of up to one byte; then all zeros and all ones of every length.
fn short(to: &mut Sink) {
    ask_all(to, &[]);
    for a in 0..=255 {
        ask_all(to, &[a]);
    }
    for n in 0..60 {
        ask_all(to, &vec![0; n]);
        ask_all(to, &vec![0xFF; n]);
        ask_all(to, &vec![1; n]);
    }
}

/// Every change of one byte, every front, one to three bytes more.
fn one_change(to: &mut Sink, good: &[u8]) {
    every_change(good, |d| ask_all(to, d));
    for more in [&[][..], &[0], &[1], &[0, 0], &[0xFF, 1], &[0, 0, 0]] {
        ask_all(to, &[good, more].concat());
    }
}

/// What can be wrong with a reply, or another kind of reply.
pub fn faults(good: &[u8]) -> Vec<Fault> {
    use Fault::*;
    let mut v = vec![Cut(0), Cut(1), Cut(2), Cut(good.len() / 2), Cut(good.len() - 4), Cut(good.len() - 3), More];
    v.extend([0, 1, 2, 3, 127, 128, 129, 255].map(|words| Set(3, words)));
    v.extend([0, 1, 2, 4, 8].map(|general| Set(2, general)));
    // where the size of application data stands, and the byte behind it
    let after = if good[3] == 1 { 6 } else { 4 };
    for at in [after + 24, after + 8] {
        v.extend([0, 1, 2, 3, 128, 255].map(|words| Set(at, words)));
        v.push(Set(at + 1, 1));
    }
    v
}

/// Whole inputs around the limit: it comes before everything else. Past it are lengths that are short again in 16 bits.
fn long(to: &mut Sink, good: &[u8]) {
    for size in [65_534, 65_535, 65_536, 65_537] {
        let mut d = good.to_vec();
        d.resize(size, 0);
        ask(to, 0x20, 0, &d);
        ask(to, 0x21, 1, &d);
        ask(to, 0x22, 0, &d);
        d[3] = 2;
        ask(to, 0x20, 0, &d);
        ask(to, 0x21, 0, &d);
    }
    ask(to, 0x20, 0, &[good, &vec![0; 65_536]].concat());
    ask(to, 0x22, 1, &vec![0; 65_536 + 3]);
}

/// Every value of the service, of the bytes that are ignored, and of the remaining path size.
fn bytes(to: &mut Sink) {
    for n in 0..=255 {
        ask(to, 0x20, 0, &[n, !n, 8, 0, n]);
        for f in forwards() {
            let mut f = Forward { service: n, ..f };
            if let Body::Failure { flag: 1, remaining, .. } = &mut f.body {
                *remaining = !n;
            }
            for (ignored, reserved) in [(0, 0), (n, 0), (0, n), (!n, n)] {
                ask_own(to, &f, &f.wire(ignored, reserved));
            }
            ask(to, 0x20, 0, &f.wire(n, 0));
        }
    }
}

/// The replies that carry these numbers: each of the fields in turn.
fn carrying(n: u32) -> Vec<Forward> {
    let mut v = vec![];
    for field in 0..5 {
        let mut f = some_open(&[7, 8]);
        if let Body::Open { o_t_id, t_o_id, ids, o_t_api, t_o_api, .. } = &mut f.body {
            *[o_t_id, t_o_id, &mut ids.originator, o_t_api, t_o_api][field] = n;
        }
        v.push(f);
    }
    let ids = Ids { originator: n, ..some_ids() };
    v.push(Forward { body: Body::Close { ids, data: vec![] }, ..some_close(&[]) });
    v.push(Forward { body: Body::Failure { ids, flag: 1, remaining: n as u8 }, ..some_failure(2, None) });
    v
}

/// Every 16-bit number as serial, vendor and extended word; long fields around every bit. Each is written too.
fn numbers(to: &mut Sink) {
    for n in 0..=65_535u16 {
        let turned = Ids { serial: n, vendor: !n.rotate_left(8), ..some_ids() };
        let mut open = some_open(&[]);
        if let Body::Open { ids, .. } = &mut open.body {
            *ids = turned;
        }
        whole(to, &open, &[0]);
        whole(to, &Forward { body: Body::Close { ids: turned, data: vec![] }, ..some_close(&[]) }, &[0]);
        let mut failure = some_failure(1, Some(n));
        if let Body::Failure { ids, .. } = &mut failure.body {
            *ids = turned;
        }
        whole(to, &failure, &[0]);
        ask(to, 0x20, 0, &failure.wire(0, 0)[..6 + (n % 3) as usize]);
    }
    for n in edges(u32::MAX.into()) {
        for f in carrying(n) {
            whole(to, &f, &[-1, 0, 1]);
        }
    }
}

/// Every number of extended words: with its bytes, one less, one more, none, as many as a byte's doubling would want,
/// and with a whole record behind them.
fn word_counts(to: &mut Sink) {
    for s in 0..=255u8 {
        let bytes = 2 * usize::from(s);
        let wrapped = usize::from(s.wrapping_mul(2));
        for general in [0, 1, 8] {
            let front = [0x8E, 0, general, s];
            for have in [bytes, bytes.saturating_sub(1), bytes + 1, 0, wrapped, wrapped.saturating_sub(1)] {
                ask_all(to, &[&front[..], &link(have, 3)].concat());
                ask_all(to, &[&front[..], &vec![0; have]].concat());
            }
            for record in [26, 10, 9, 8, 7] {
                ask_all(to, &[&front[..], &link(bytes, 5), &vec![0; record]].concat());
            }
        }
    }
}

/// Every size of application data: exactly enough, one and two short, none, more behind it, as many as a byte would
/// count; with and without a word in the header.
fn data_sizes(to: &mut Sink) {
    for words in 0..=255u8 {
        let bytes = 2 * usize::from(words);
        for bare in [some_open(&[]), some_close(&[])] {
            for word in [None, Some(0x0311)] {
                let mut front = with(bare.clone(), status(0, word)).wire(0, 0);
                let at = front.len() - 2;
                front[at] = words;
                let short = |n: usize| bytes.saturating_sub(n);
                for have in [bytes, short(1), short(2), short(3), bytes + 1, bytes + 2, 0, usize::from(words.wrapping_mul(2))] {
                    ask_own(to, &bare, &[&front[..], &link(have, 9)].concat());
                }
                // the reserved byte is not the data's first, and the record ends before it
                front[at + 1] = 0xEE;
                ask_own(to, &bare, &[&front[..], &link(bytes, 2)].concat());
                ask_own(to, &bare, &front[..at + 1]);
                ask_own(to, &bare, &front[..at]);
            }
        }
    }
}

/// Every general status, with and without a word, before records of 7 to 11 and of 26 bytes, told both ways.
fn statuses(to: &mut Sink) {
    for general in 0..=255 {
        for word in [None, Some(0), Some(0x0204), Some(0x0402), Some(0x0311), Some(0x0312), Some(0x0315), Some(0xFFFF)] {
            let head = with(some_failure(8, None), status(general, word)).wire(0, 0);
            let head = &head[..head.len() - 8];
            for record in [0, 7, 8, 9, 10, 11, 26] {
                ask_all(to, &[head, &link(record, 4)].concat());
            }
        }
    }
}
