//! Each operation of docs/ANSWERS.md that has an exported function.
use crate::fields::{accepted, read, written, Case, Fields};
use barkcushion::*;

/// The longest path: as many far ports with the longest link, or symbols, as a list has.
const SCRATCH: usize = 258 * MAX_SEGMENTS;

/// What the archive answers to a case, asked through each door of the crate that can say it: one, or for some two.
/// No answer where no function is exported: a segment by itself (01, 03, 06), the setter of the first byte (15).
///
/// One order of judging is not the program's. There a request is given its segments, and the path's limit of 254 bytes
/// comes behind what is wrong with them; here it is given the path's bytes, and the limit comes first. No case can
/// tell: the path is written before, by rows, and its refusal is the answer; bytes that were just written have nothing
/// wrong but their number.
pub fn ask(case: &[u8]) -> Vec<Vec<u8>> {
    let c = &mut Case(case);
    let scratch = &mut [0; SCRATCH];
    let answers = match c.u8() {
        0x01 | 0x03 | 0x06 | 0x15 => return Vec::new(),
        0x02 => path_size_of(c),
        0x04 => write_path_of(c),
        0x05 => read_path_of(c),
        0x33 => reply_item_of(c),
        op => vec![match op {
            0x07 => read(check_path(c.bytes()).map(|n| accepted().count(n))),
            0x10..=0x14 => write_request(op, c, scratch),
            0x18..=0x1B => read_request(op, c),
            0x20..=0x22 => read_reply(op, c),
            0x23..=0x25 => write_reply(op, c),
            0x26 => {
                let s = c.bytes();
                read(Envelope::read(s).map(|envelope| match envelope {
                    Envelope::Unconnected { data } => accepted().u8(0).u16(0).part(s, data),
                    Envelope::Connected { count, data } => accepted().u8(1).u16(count).part(s, data),
                }))
            }
            0x27 => read(Ok(accepted().u8(c.status().is_routing_error().into()))),
            0x30..=0x32 | 0x34 => body(op, c),
            0x40 => {
                let mut numbers = vec![0xA5A5; ROW * MAX_ROWS];
                read(read_nested(c.bytes(), &mut numbers).map(|rows| {
                    let fields = accepted().count(rows.len());
                    rows.fold(fields, |f, r| f.u8(r.depth).u8(r.service).u16(r.path_bytes).u16(r.data_bytes))
                }))
            }
            0x50 => take_scrap(c),
            _ => panic!("no operation {op:02X} here"),
        }],
    };
    assert!(c.0.is_empty(), "{} bytes of the case left over", c.0.len());
    answers
}

// ---- paths: by rows, and by segments where every part lies in the pool

fn segments<'p>(rows: &[u32], pool: &'p [u8]) -> Option<Vec<Segment<'p>>> {
    let segment = |row: &[u32]| {
        let (number, start, len) = (row[1], row[2] as usize, row[3] as usize);
        let small = || u16::try_from(number).expect("a number that the kind can hold");
        Some(match row[0] {
            0 => Segment::Symbol(pool.get(start..start + len)?),
            1 => Segment::Class(small()),
            2 => Segment::Instance(small()),
            3 => Segment::Attribute(small()),
            4 => Segment::Element(number),
            5 => Segment::Port { port: small(), link: pool.get(start..start + len)? },
            kind => panic!("no kind {kind}"),
        })
    };
    rows.chunks(ROW).map(segment).collect()
}

fn path_size_of(c: &mut Case) -> Vec<Vec<u8>> {
    let (pool, rows) = (c.bytes(), c.rows());
    let said = |size: Result<usize>| read(size.map(|n| accepted().count(n)));
    let mut answers = vec![said(rows_size(&rows, pool))];
    answers.extend(segments(&rows, pool).map(|segments| said(path_size(&segments))));
    answers
}

fn write_path_of(c: &mut Case) -> Vec<Vec<u8>> {
    let (pool, rows, room) = (c.bytes(), c.rows(), c.room());
    let mut answers = vec![written(room, |out| write_rows(&rows, pool, out))];
    answers.extend(segments(&rows, pool).map(|segments| written(room, |out| write_path(&segments, out))));
    answers
}

fn read_path_of(c: &mut Case) -> Vec<Vec<u8>> {
    let s = c.bytes();
    let mut rows = [0xA5A5_A5A5; ROW * MAX_SEGMENTS];
    let path = read_path(s, &mut rows);
    let list = |count: usize| accepted().u16(count.try_into().unwrap());
    let by_rows = path.clone().map(|path| {
        let put = |f: Fields, row: &[u32]| f.u8(row[0].try_into().unwrap()).u32(row[1]).u32(row[2]).u32(row[3]);
        path.rows().chunks(ROW).fold(list(path.len()), put)
    });
    let by_segments = path.map(|path| {
        let plain = |f: Fields, kind: u8, number: u32| f.u8(kind).u32(number).u32(0).u32(0);
        path.clone().fold(list(path.len()), |f, segment| match segment {
            Segment::Symbol(name) => f.u8(0).u32(0).part(s, name),
            Segment::Class(n) => plain(f, 1, n.into()),
            Segment::Instance(n) => plain(f, 2, n.into()),
            Segment::Attribute(n) => plain(f, 3, n.into()),
            Segment::Element(n) => plain(f, 4, n),
            Segment::Port { port, link } => f.u8(5).u32(port.into()).part(s, link),
        })
    });
    vec![read(by_rows), read(by_segments)]
}

// ---- requests

/// The path of POOL and LIST.
fn path<'s>(c: &mut Case, scratch: &'s mut [u8]) -> Result<&'s [u8]> {
    let (pool, rows) = (c.bytes(), c.rows());
    write_rows(&rows, pool, scratch)
}

fn write_request(op: u8, c: &mut Case, scratch: &mut [u8]) -> Vec<u8> {
    match op {
        0x10 => {
            let service = c.u8();
            let path = path(c, scratch);
            let data = c.bytes();
            written(c.room(), |out| Message { service, path: path?, data }.write(out))
        }
        0x11 => {
            let form = c.form();
            let open = c.open(form);
            let path = path(c, scratch);
            written(c.room(), |out| ForwardOpen { path: path?, ..open }.write(out))
        }
        0x12 => {
            let close = c.close();
            let path = path(c, scratch);
            written(c.room(), |out| ForwardClose { path: path?, ..close }.write(out))
        }
        0x13 => {
            let (priority_ticks, timeout_ticks, message) = (c.u8(), c.u8(), c.bytes());
            let path = path(c, scratch);
            written(c.room(), |out| UnconnectedSend { priority_ticks, timeout_ticks, message, path: path? }.write(out))
        }
        _ => {
            let (form, serial) = (c.form(), c.u16());
            let default = [Segment::Port { port: 1, link: &[0] }, Segment::Class(2), Segment::Instance(1)];
            let path = write_path(&default, scratch);
            written(c.room(), |out| ForwardOpen::new(form, serial, path?).write(out))
        }
    }
}

fn read_request(op: u8, c: &mut Case) -> Vec<u8> {
    let form = if op == 0x19 { c.form() } else { Form::Small };
    let s = c.bytes();
    read(match op {
        0x18 => Message::read(s).map(|m| accepted().u8(m.service).part(s, m.path).part(s, m.data)),
        0x19 => ForwardOpen::read(form, s).map(|o| accepted().open(&o).part(s, o.path)),
        0x1A => ForwardClose::read(s).map(|f| {
            let fields = accepted().u8(f.priority_ticks).u8(f.timeout_ticks);
            fields.triad(f.connection_serial_number, f.vendor_id, f.originator_serial_number).part(s, f.path)
        }),
        _ => UnconnectedSend::read(s)
            .map(|u| accepted().u8(u.priority_ticks).u8(u.timeout_ticks).part(s, u.message).part(s, u.path)),
    })
}

// ---- replies

fn header(s: &[u8], r: &Reply) -> Fields {
    accepted().u8(r.service).status(r.status).part(s, r.data)
}

/// The status of a success, which may have a word: `Opened` and `Closed` do not keep it, the header's reader does.
fn success(s: &[u8], service: u8) -> Fields {
    let header = Reply::read(s).expect("the header of a reply that was read");
    accepted().u8(service).status(header.status).u8(1)
}

fn read_reply(op: u8, c: &mut Case) -> Vec<u8> {
    let routing = op != 0x20 && c.flag();
    let s = c.bytes();
    read(match op {
        0x20 => Reply::read(s).map(|r| header(s, &r)),
        0x21 => ForwardOpenReply::read_as(routing, s).map(|reply| match reply {
            ForwardOpenReply::Opened(o) => {
                let fields = success(s, o.service).u32(o.o_t_connection_id).u32(o.t_o_connection_id);
                let fields = fields.triad(o.connection_serial_number, o.vendor_id, o.originator_serial_number);
                fields.u32(o.o_t_api).u32(o.t_o_api).part(s, o.app_data)
            }
            ForwardOpenReply::Failed(f) => accepted().failure(&f),
        }),
        _ => ForwardCloseReply::read_as(routing, s).map(|reply| match reply {
            ForwardCloseReply::Closed(f) => {
                let fields = success(s, f.service);
                fields.triad(f.connection_serial_number, f.vendor_id, f.originator_serial_number).part(s, f.app_data)
            }
            ForwardCloseReply::Failed(f) => accepted().failure(&f),
        }),
    })
}

fn write_reply(op: u8, c: &mut Case) -> Vec<u8> {
    match op {
        0x23 => {
            let opened = Opened {
                service: c.u8(),
                o_t_connection_id: c.u32(),
                t_o_connection_id: c.u32(),
                connection_serial_number: c.u16(),
                vendor_id: c.u16(),
                originator_serial_number: c.u32(),
                o_t_api: c.u32(),
                t_o_api: c.u32(),
                app_data: c.bytes(),
            };
            written(c.room(), |out| opened.write(out))
        }
        0x24 => {
            let closed = Closed {
                service: c.u8(),
                connection_serial_number: c.u16(),
                vendor_id: c.u16(),
                originator_serial_number: c.u32(),
                app_data: c.bytes(),
            };
            written(c.room(), |out| closed.write(out))
        }
        _ => {
            let failure = Failure {
                service: c.u8(),
                status: c.status(),
                connection_serial_number: c.u16(),
                vendor_id: c.u16(),
                originator_serial_number: c.u32(),
                remaining: c.remaining(),
            };
            written(c.room(), |out| failure.write(out))
        }
    }
}

// ---- bodies

fn body(op: u8, c: &mut Case) -> Vec<u8> {
    let s = c.bytes();
    match op {
        0x30 => {
            let lengths = c.lengths();
            written(c.room(), |out| write_body(s, &lengths, out))
        }
        0x31 => read(Body::read(s).map(|body| accepted().count(body.len()))),
        0x32 => {
            let index = c.place();
            read(Body::read(s).and_then(|body| body.item(index)).map(|item| accepted().part(s, item)))
        }
        _ => {
            let second = c.bytes();
            written(c.room(), |out| join_bodies(s, second, out))
        }
    }
}

/// By its index, and among all replies in one call, which has no refusal for an index that is not there: 11 is ours.
fn reply_item_of(c: &mut Case) -> Vec<Vec<u8>> {
    let (s, index) = (c.bytes(), c.place());
    let body = Body::read(s);
    let mut rows = vec![usize::MAX; REPLY_ROW * body.map_or(0, |body| body.len())];
    let one = body.and_then(|body| body.reply(index));
    let among = read_replies(s, &mut rows).and_then(|mut all| all.nth(index).unwrap_or(Err(Error::Outside)));
    [one, among].map(|reply| read(reply.map(|r| header(s, &r)))).to_vec()
}

// ---- frames

/// The state and the whole buffer stand in a refused answer too. Behind what is lent nothing may change either.
fn take_scrap(c: &mut Case) -> Vec<u8> {
    let state = c.frame_state();
    let (buffer, scrap) = (c.bytes(), c.bytes());
    let mut memory = [buffer, &[0xA5; 64]].concat();
    let (lent, behind) = memory.split_at_mut(buffer.len());
    let mut frames = FrameCollector::resume(lent, state);
    let answer = read(frames.take(scrap).map(|taken| match taken {
        Taken::All => accepted().count(scrap.len()).count(0),
        Taken::Frame { frame, taken } => accepted().count(taken).count(frame.len()),
    }));
    let mut answer = Fields(answer).frame_state(frames.state()).0;
    assert!(behind.iter().all(|b| *b == 0xA5), "changed behind what is lent");
    answer.extend(&*lent);
    answer
}
