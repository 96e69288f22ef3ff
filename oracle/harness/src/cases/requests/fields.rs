//! Requests in the crate's domain: every field through its values, and each record read back.

use super::*;
use crate::cases::bytes::{edges, link, text};
use crate::cases::paths::small;
use std::slice;

pub fn fixed(to: &mut Sink) {
    bytes(to);
    long_numbers(to);
    words(to);
    paths(to);
    messages(to);
    for value in 0..=255 {
        ask_setter(to, value);
    }
    for serial in 0..=65_535 {
        for large in [0, 1] {
            ask_default(to, large, serial, 42 + 4 * u32::from(large));
        }
    }
    for serial in [0, 1, 0x1234, 65_535] {
        for room in (0..50).chain([65_535, 65_536, 70_000]) {
            for large in [0, 1] {
                ask_default(to, large, serial, room);
            }
        }
    }
}

fn open(to: &mut Sink, o: Open) {
    whole(to, &Head::Open(o), &short_path(), &[0]);
}

/// Every value of every field of one byte. Behind a reserved bit the reader refuses what was written.
fn bytes(to: &mut Sink) {
    for n in 0..=255u8 {
        for data in [&[][..], &[n]] {
            whole(to, &Head::Message { service: n, data: data.to_vec() }, &short_path(), &[0]);
            whole(to, &Head::Message { service: n, data: data.to_vec() }, &[], &[0]);
        }
        for large in [0, 1] {
            let o = some_open(large);
            open(to, Open { prio: n, ..o });
            open(to, Open { ticks: n, ..o });
            open(to, Open { multiplier: n, ..o });
        }
        let c = some_close();
        for c in [Close { prio: n, ..c }, Close { ticks: n, ..c }] {
            whole(to, &Head::Close(c), &short_path(), &[0]);
        }
        for (prio, ticks) in [(n, 0x9D), (5, n)] {
            whole(to, &Head::Send { prio, ticks, message: GET.to_vec() }, &short_path(), &[0]);
        }
    }
}

/// Every 16-bit number as serial, vendor and connection size; long fields around every bit, one at a time.
fn long_numbers(to: &mut Sink) {
    for n in 0..=65_535u16 {
        let turned = n.rotate_left(8);
        let c = Close { serial: n, vendor: !turned, ..some_close() };
        whole(to, &Head::Close(c), &[], &[0]);
        let large = (n & 1) as u8;
        let mut o = Open { serial: turned, vendor: !n, ..some_open(large) };
        o.o_t.size = if large == 1 { n } else { n / 2 % 512 };
        o.t_o.size = if large == 1 { !turned } else { !turned % 512 };
        whole(to, &Head::Open(o), &[], &[0]);
        // the rest of the sizes of the large form
        o.large = 1;
        (o.o_t.size, o.t_o.size) = (!n, n);
        whole(to, &Head::Open(o), &[], &[0]);
    }
    for n in edges(u32::MAX.into()) {
        let c = Close { originator: n, ..some_close() };
        whole(to, &Head::Close(c), &short_path(), &[0]);
        for large in [0, 1] {
            let o = some_open(large);
            open(to, Open { o_t_id: n, ..o });
            open(to, Open { t_o_id: n, ..o });
            open(to, Open { originator: n, ..o });
            open(to, Open { o_t_rpi: n, ..o });
            open(to, Open { t_o_rpi: n, ..o });
        }
    }
}

/// Every pair of parameter words; every size of the small form; every direction, trigger and class.
fn words(to: &mut Sink) {
    for large in [0, 1] {
        let base = some_open(large);
        for a in 0..48 {
            for b in 0..48 {
                let size = [0, 511, 0x0155, 0x00AA][(a + b) as usize % 4];
                open(to, Open { o_t: word(a, size), t_o: word(b, 511 - size), ..base });
            }
        }
        for size in (0..=512).chain([513, 0x3FF, 0x400, 0x1000, 0x1FFF, 0x2000, 0x8000, 65_023, 65_024, 65_535]) {
            for (a, b) in [(size, 7), (7, size), (size, size)] {
                open(to, Open { o_t: word(0, a), t_o: word(47, b), ..base });
                open(to, Open { o_t: word(47, a), t_o: word(0, b), ..base });
            }
        }
        for direction in [0, 1] {
            for trigger in 0..3 {
                for class in 0..7 {
                    open(to, Open { direction, trigger, class, ..base });
                }
            }
        }
    }
}

/// Every request with every small path, and with long ones of every even length up to the limit.
fn paths(to: &mut Sink) {
    for head in heads() {
        whole(to, &head, &[], &[-1_000, -1, 0, 1, 9]);
        for a in small() {
            whole(to, &head, slice::from_ref(&a), &[-1, 0, 1]);
            for b in small() {
                whole(to, &head, &[a.clone(), b], &[0]);
            }
        }
        for n in 0..=127 {
            whole(to, &head, &vec![plain(ELEMENT, n as u32, b""); n], &[-1, 0, 1]);
            // one segment of about as many bytes
            whole(to, &head, &[plain(SYMBOL, 0, &text(2 * n, n))], &[-1, 0, 1]);
            whole(to, &head, &[plain(PORT, 15, &link(2 * n, n))], &[0]);
        }
    }
}

/// Messages and data of many lengths, odd and even.
fn messages(to: &mut Sink) {
    for n in (0..=70).chain(250..=260).chain(505..=515).chain([1_000, 4_095, 4_096, 4_097, 32_767, 32_768]) {
        let data = link(n, n);
        for list in [vec![], short_path()] {
            whole(to, &some_message(&data), &list, &[0, 1]);
            whole(to, &some_send(&[&[0x55, 0][..], &data].concat()), &list, &[-1, 0, 1]);
            whole(to, &some_send(&[&GET[..], &data].concat()), &list, &[0]);
        }
    }
    // the inner path is no path at all, which neither the crate nor we look at
    for words in [1, 2, 3, 126, 127] {
        for more in 0..3 {
            let inner = [vec![0x4C, words], vec![0xFF; 2 * words as usize + more]].concat();
            whole(to, &some_send(&inner), &short_path(), &[0, 1]);
        }
    }
}
