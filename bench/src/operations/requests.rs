//! Default Forward Opens, and messages.
use super::paths::{list, our_3, their_3};
use super::{by_ref, crate_bytes, writer, Entry, Operation};
use crate::place;
use barkcushion::{Form, ForwardOpen, Message, PathBuilder, Segment};
use bytes::Bytes;
use rseip_cip::connection::{Direction, OpenOptions, TransportClass, TriggerType};
use rseip_cip::epath::EPath;
use rseip_cip::MessageRequest;
use rseip_core::codec::Encode;
use std::hint::black_box;

pub const ALL: &[Entry] = &[
    ("open-small", "Forward Open small, path from segments", || open(false)),
    ("open-large", "Forward Open large, path from segments", || open(true)),
    ("open-small-path", "Forward Open small, path written before", || open_with_path(false)),
    ("open-large-path", "Forward Open large, path written before", || open_with_path(true)),
    ("message-16", "message, 16 bytes of data, path from segments", || message(16)),
    ("message-16-path", "message, 16 bytes of data, path written before", || message_with_path(16)),
    ("message-480", "message, 480 bytes of data, path from segments", || message(480)),
    ("message-480-path", "message, 480 bytes of data, path written before", || message_with_path(480)),
];

const SERIAL: u16 = 0x1234;

/// The crate's default, as its pages have it, but for the serial, which it draws.
fn their_open<P>(large: bool, connection_path: P) -> OpenOptions<P> {
    OpenOptions {
        o_t_connection_id: 0,
        t_o_connection_id: 0,
        priority_tick_time: 0x03,
        timeout_ticks: 0xfa,
        connection_serial_number: SERIAL,
        vendor_id: 0xFF,
        originator_serial_number: 0xFFFFFFFF,
        o_t_rpi: 0x4240,
        t_o_rpi: 0x4240,
        timeout_multiplier: 3,
        connection_path,
        o_t_params: Default::default(),
        t_o_params: Default::default(),
        transport_direction: Direction::Server,
        transport_class: TransportClass::Class3,
        transport_trigger: TriggerType::Application,
        large_open: large,
    }
}

fn our_open(large: bool, path: &[u8]) -> ForwardOpen<'_> {
    ForwardOpen::new(if large { Form::Large } else { Form::Small }, SERIAL, path)
}

fn is_the_default(large: bool) {
    let default = OpenOptions::default().connection_serial_number(SERIAL).large_open(large);
    assert_eq!(crate_bytes(&default), crate_bytes(&their_open(large, their_3())), "the crate's default");
}

/// The path of a list that stands ready, in a buffer that is kept.
#[inline(always)]
fn path_of<'b>(list: &PathBuilder, buffer: &'b mut [u8; 254]) -> &'b [u8] {
    black_box(list).write(buffer).unwrap()
}

fn open(large: bool) -> Operation {
    is_the_default(large);
    let (open, list, mut buffer) = (our_open(large, &[]), list(&our_3()), [0; 254]);
    writer(
        move |out| ForwardOpen { path: path_of(&list, &mut buffer), ..*black_box(&open) }.write(out),
        by_ref(their_open(large, their_3())),
    )
}

fn open_with_path(large: bool) -> Operation {
    is_the_default(large);
    let path = place::input(&crate_bytes(&their_3()));
    let open = our_open(large, path);
    writer(move |out| black_box(&open).write(out), by_ref(their_open(large, Bytes::from_static(path))))
}

const SERVICE: u8 = 0x10;
fn our_message_path() -> [Segment<'static>; 3] {
    [Segment::Class(1), Segment::Instance(1), Segment::Attribute(7)]
}
fn their_message_path() -> EPath {
    EPath::new().with_class(1).with_instance(1).with_attribute(7)
}
fn data(n: usize) -> &'static [u8] {
    place::input(&(0..n).map(|i| i as u8).collect::<Vec<_>>())
}
fn their_message<P: Encode>(path: P, n: usize) -> MessageRequest<P, Bytes> {
    MessageRequest::new(SERVICE, path, Bytes::from_static(data(n)))
}

fn message(n: usize) -> Operation {
    let (list, mut buffer) = (list(&our_message_path()), [0; 254]);
    let message = Message { service: SERVICE, path: &[], data: data(n) };
    writer(
        move |out| Message { path: path_of(&list, &mut buffer), ..*black_box(&message) }.write(out),
        by_ref(their_message(their_message_path(), n)),
    )
}

fn message_with_path(n: usize) -> Operation {
    let path = place::second_input(&crate_bytes(&their_message_path()));
    let message = Message { service: SERVICE, path, data: data(n) };
    writer(move |out| black_box(&message).write(out), by_ref(their_message(Bytes::from_static(path), n)))
}
