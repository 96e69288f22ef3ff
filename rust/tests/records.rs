//! Requests, replies and the envelope at their limits, and read back.
mod common;
use barkcushion::*;
use common::{every_room, refused};

/// A path of 2n bytes.
fn path(n: usize) -> Vec<u8> {
    [0x20, 6].repeat(n)
}

#[test]
fn messages() {
    let (most, over) = (path(127), path(128));
    for path in [&[][..], &most] {
        for data in [&[][..], &[1], &[1, 2, 3]] {
            let message = Message { service: 0x4C, path, data };
            let bytes = every_room(2 + path.len() + data.len(), |out| message.write(out));
            assert_eq!(Message::read(&bytes), Ok(message));
        }
    }
    refused(Error::Limit, |out| Message { service: 1, path: &over, data: &[] }.write(out));
    refused(Error::Form, |out| Message { service: 1, path: &[0x21, 0, 5, 0], data: &[] }.write(out));
    refused(Error::Short, |out| Message { service: 1, path: &[0x20], data: &[] }.write(out));
    let data = vec![7; 65534];
    let full = every_room(65535, |out| Message { service: 1, path: &[], data: &data[1..] }.write(out));
    assert_eq!(Message::read(&full).unwrap().data.len(), 65533);
    refused(Error::Limit, |out| Message { service: 1, path: &[], data: &data }.write(out));
    assert_eq!(Message::read(&[0; 65536]), Err(Error::Limit));
    assert_eq!(Message::read(&[]), Err(Error::Short));
    assert_eq!(Message::read(&[1, 1, 0x20]), Err(Error::Short));
    assert_eq!(Message::read(&[1, 128]), Err(Error::Limit));
}

#[test]
fn unconnected_sends() {
    let data = vec![7; 65530];
    let send = |message, path| UnconnectedSend { priority_ticks: 3, timeout_ticks: 250, message, path };
    let most = path(127);
    for (size, message, path) in
        [(6, &[][..], &[][..]), (8, &[1], &[]), (10, &[1, 2], &[1, 0]), (260, &[], &most), (65534, &data[2..], &[])]
    {
        let bytes = every_room(size, |out| send(message, path).write(out));
        assert_eq!(UnconnectedSend::read(&bytes), Ok(send(message, path)));
    }
    refused(Error::Limit, |out| send(&data, &[]).write(out));
    refused(Error::Code, |out| send(&[], &[0xFF, 0]).write(out));
    assert_eq!(UnconnectedSend::read(&[3, 250, 1, 0, 9, 1, 0, 0]), Err(Error::Form)); // the pad
    assert_eq!(UnconnectedSend::read(&[3, 250, 0, 0, 0, 0, 9]), Err(Error::Leftover));
}

#[test]
fn forward_opens() {
    let most = path(127);
    for (form, base) in [(Form::Small, 36), (Form::Large, 40)] {
        for path in [&[][..], &[1, 0], &most] {
            let mut open = ForwardOpen::new(form, 7, path);
            open.o_t.connection_size = 511;
            open.t_o.connection_size = 0;
            let bytes = every_room(base + path.len(), |out| open.write(out));
            assert_eq!(ForwardOpen::read(form, &bytes), Ok(open));
        }
    }
    let mut open = ForwardOpen::new(Form::Small, 7, &[]);
    open.t_o.connection_size = 512;
    refused(Error::Limit, |out| open.write(out));
    open.o_t.connection_size = 512;
    refused(Error::Limit, |out| open.write(out));
    // The path is judged first.
    refused(Error::Code, |out| ForwardOpen { path: &[0xFF, 0], ..open }.write(out));
    refused(Error::Short, |out| ForwardOpen { path: &[0x20], ..open }.write(out));
    refused(Error::Limit, |out| ForwardOpen { path: &path(128), ..open }.write(out));
    refused(Error::Limit, |out| ForwardOpen { path: &[0xFF; 255], ..open }.write(out));
    every_room(40, |out| ForwardOpen { form: Form::Large, ..open }.write(out));
}

#[test]
fn parameters_and_transports() {
    for form in [Form::Small, Form::Large] {
        for priority in [Priority::Low, Priority::High, Priority::Scheduled, Priority::Urgent] {
            for connection_type in [ConnectionType::Null, ConnectionType::Multicast, ConnectionType::PointToPoint] {
                for (redundant_owner, variable_length) in [(false, true), (true, false)] {
                    let connection_size = if form == Form::Small { 511 } else { 65535 };
                    let p = Parameters { redundant_owner, connection_type, variable_length, priority, connection_size };
                    assert_eq!(Parameters::decode(form, p.encode(form).unwrap()), Ok(p));
                }
            }
        }
    }
    assert_eq!(Parameters::decode(Form::Small, 0x6000), Err(Error::Code));
    assert_eq!(Parameters::decode(Form::Small, 0x1000), Err(Error::Form));
    let mut good = 0;
    for byte in 0..=255 {
        match Transport::decode(byte) {
            Ok(t) => {
                assert_eq!(t.encode(), Ok(byte));
                good += 1;
            }
            Err(e) => assert_eq!(e, Error::Code),
        }
    }
    assert_eq!(good, 2 * 3 * 7);
}

#[test]
fn forward_closes() {
    let close = ForwardClose {
        priority_ticks: 3,
        timeout_ticks: 250,
        connection_serial_number: 7,
        vendor_id: 0xFF,
        originator_serial_number: 9,
        path: &[0x20, 2, 0x24, 1],
    };
    let bytes = every_room(16, |out| close.write(out));
    assert_eq!(ForwardClose::read(&bytes), Ok(close));
    assert_eq!(ForwardClose::read(&bytes[..15]), Err(Error::Short));
    assert_eq!(ForwardClose::read(&[&bytes[..], &[0]].concat()), Err(Error::Leftover));
    refused(Error::Limit, |out| ForwardClose { path: &path(128), ..close }.write(out));
}

/// The upper four bits of the first byte: written as they stand, refused when read.
#[test]
fn ticks() {
    let open = |n| ForwardOpen { priority_tick_time: n, ..ForwardOpen::new(Form::Small, 7, &[]) };
    let send = |n| UnconnectedSend { priority_ticks: n, timeout_ticks: 1, message: &[], path: &[] };
    let close = |n| ForwardClose {
        priority_ticks: n,
        timeout_ticks: 1,
        connection_serial_number: 2,
        vendor_id: 3,
        originator_serial_number: 4,
        path: &[],
    };
    for n in [0, 15, 16, 0x23, 255] {
        let judged = |first: &u8| if n > 15 { Err(Error::Form) } else { Ok(*first) };
        let bytes = every_room(36, |out| open(n).write(out));
        assert_eq!(ForwardOpen::read(Form::Small, &bytes).map(|o| o.priority_tick_time), judged(&bytes[0]));
        let bytes = every_room(6, |out| send(n).write(out));
        assert_eq!(UnconnectedSend::read(&bytes).map(|u| u.priority_ticks), judged(&bytes[0]));
        let bytes = every_room(12, |out| close(n).write(out));
        assert_eq!(ForwardClose::read(&bytes).map(|c| c.priority_ticks), judged(&bytes[0]));
        assert_eq!(bytes[0], n);
    }
}

#[test]
fn served() {
    let data = [7; 512];
    let opened = |app_data| Opened {
        service: 0xD4,
        o_t_connection_id: 1,
        t_o_connection_id: 2,
        connection_serial_number: 3,
        vendor_id: 4,
        originator_serial_number: 5,
        o_t_api: 6,
        t_o_api: u32::MAX,
        app_data,
    };
    let closed = |app_data| Closed {
        service: 0xCE,
        connection_serial_number: 3,
        vendor_id: 4,
        originator_serial_number: 5,
        app_data,
    };
    for n in [0, 2, 510] {
        let bytes = every_room(4 + 26 + n, |out| opened(&data[..n]).write(out));
        assert_eq!(ForwardOpenReply::read(&bytes), Ok(ForwardOpenReply::Opened(opened(&data[..n]))));
        assert_eq!(ForwardOpenReply::read_as(true, &bytes), ForwardOpenReply::read(&bytes));
        assert_eq!(ForwardOpenReply::read(&bytes[..bytes.len() - 1]), Err(Error::Short));
        let bytes = every_room(4 + 10 + n, |out| closed(&data[..n]).write(out));
        assert_eq!(ForwardCloseReply::read(&bytes), Ok(ForwardCloseReply::Closed(closed(&data[..n]))));
        assert_eq!(ForwardCloseReply::read(&bytes[..bytes.len() - 1]), Err(Error::Short));
    }
    for (why, n) in [(Error::Form, 1), (Error::Form, 509), (Error::Limit, 511), (Error::Limit, 512)] {
        refused(why, |out| opened(&data[..n]).write(out));
        refused(why, |out| closed(&data[..n]).write(out));
    }
}

#[test]
fn failed() {
    let failure = Failure {
        service: 0xD4,
        status: Status { general: 1, extended: Some(0x100) },
        connection_serial_number: 3,
        vendor_id: 4,
        originator_serial_number: 5,
        remaining: None,
    };
    let bytes = every_room(6 + 8, |out| failure.write(out));
    assert_eq!(ForwardOpenReply::read(&bytes), Ok(ForwardOpenReply::Failed(failure)));
    assert_eq!(ForwardCloseReply::read(&bytes), Ok(ForwardCloseReply::Failed(failure)));
    assert_eq!(ForwardOpenReply::read_as(true, &bytes), Err(Error::Short)); // a ninth byte is asked for
    refused(Error::Code, |out| Failure { status: Status { general: 0, extended: None }, ..failure }.write(out));

    // A port that is not there: a routing error, which tells what was left of the path.
    let status = Status { general: 1, extended: Some(0x311) };
    assert!(status.is_routing_error() && !failure.status.is_routing_error());
    let routing = Failure { status, remaining: Some(2), ..failure };
    let bytes = every_room(6 + 9, |out| routing.write(out));
    assert_eq!(ForwardOpenReply::read(&bytes), Ok(ForwardOpenReply::Failed(routing)));
    assert_eq!(ForwardCloseReply::read(&bytes), Ok(ForwardCloseReply::Failed(routing)));
    let plain = Failure { remaining: None, ..routing };
    assert_eq!(ForwardOpenReply::read_as(false, &bytes), Ok(ForwardOpenReply::Failed(plain)));
}

#[test]
fn reply_headers() {
    assert_eq!(Reply::read(&[]), Err(Error::Short));
    assert_eq!(Reply::read(&[0xCC, 0, 0]), Err(Error::Short));
    assert_eq!(Reply::read(&[0xCC, 0, 0, 2, 0, 0, 0]), Err(Error::Short));
    assert_eq!(Reply::read(&[0xCC, 0, 0, 2, 0, 0, 0, 0]), Err(Error::Words));
    assert_eq!(Reply::read(&[&[0xCC, 0, 0, 128][..], &[0; 256]].concat()), Err(Error::Words)); // not doubled in a byte
    let reply = Reply::read(&[0xCC, 0x77, 0, 0, 9]).unwrap();
    assert!(reply.status.is_success());
    assert_eq!((reply.service, reply.status.extended, reply.data), (0xCC, None, &[9][..]));
    assert_eq!(Reply::read(&[0; 65536]), Err(Error::Limit));
}

#[test]
fn envelopes() {
    let bytes = [2, 0, 0, 0, 0, 0, 0xB2, 0, 1, 0, 9];
    assert_eq!(Envelope::read(&bytes).unwrap().data(), [9]);
    for n in 0..bytes.len() {
        assert_eq!(Envelope::read(&bytes[..n]), Err(Error::Short), "{n}");
    }
    assert_eq!(Envelope::read(&[&bytes[..], &[0]].concat()), Err(Error::Leftover));
    assert_eq!(Envelope::read(&[2, 0, 0, 0, 0, 0, 0xB1, 0, 1, 0, 9]), Err(Error::Envelope));
    let connected = Envelope::read(&[2, 0, 0xA1, 0, 0, 0, 0xB1, 0, 2, 0, 9, 1]);
    assert_eq!(connected, Ok(Envelope::Connected { count: 0x109, data: &[] }));
    assert_eq!(connected.unwrap().data(), []);
}
