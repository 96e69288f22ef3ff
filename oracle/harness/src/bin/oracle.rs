//! line oracle: one request per stdin line, one answer per stdout line. Numbers decimal or 0x; bytes plain hex, "-" = empty.
//!   path SEG..                      SEG = C5 I1 A7 E65536 S<hex> P<port>:<hex>
//!   open small|large PRIO TICKS OTID TOID SERIAL VENDOR OSERIAL MULT OTRPI OTPAR TORPI TOPAR DIR TRIG CLASS SEG..   PAR = size,variable,priority,type,owner
//!   close PRIO TICKS SERIAL VENDOR OSERIAL SEG..
//!   msg SERVICE DATA SEG..
//!   unsend PRIO TICKS SERVICE DATA SEG.. / SEG..      (inner message's path, then the route)
//!   body ITEM..
//!   hdr HEX | fopen HEX | fclose HEX | routing GENERAL EXT|-
//!   walk HEX                        each item typed to read exactly its own span (spans from the offsets)
//!   env0 HEX | env1 HEX             null/B2, A1/B1 (rests on the stand-in CommonPacketIter)
//! answers: ok .. | err short|two-words|status G E|other TEXT | panic TEXT | na TEXT
use bytes::Bytes;
use harness::ask_crate::bodies::{self, failed_status, Given};
use harness::*;
use rseip_cip::codec::decode::message_reply::*;
use rseip_cip::connection::*;
use rseip_cip::epath::*;
use rseip_cip::service::request::UnconnectedSend;
use rseip_cip::{MessageReply, MessageRequest, Status};
use rseip_core::cip::CommonPacketIter;
use std::io::{BufRead, Write};

fn num(s: &str) -> Result<u64, String> {
    match s.strip_prefix("0x") {
        Some(h) => u64::from_str_radix(h, 16),
        None => s.parse(),
    }
    .map_err(|_| format!("number {}", s))
}
fn raw(s: &str) -> Vec<u8> {
    if s == "-" {
        vec![]
    } else {
        unhex(s)
    }
}
fn flat(b: &[u8]) -> String {
    if b.is_empty() {
        "-".into()
    } else {
        b.iter().map(|x| format!("{:02X}", x)).collect()
    }
}
fn path(t: &[&str]) -> Result<EPath, String> {
    let mut p = EPath::new();
    for s in t {
        let (k, v) = s.split_at(1);
        p.push(match k {
            "C" => Segment::Class(num(v)? as u16),
            "I" => Segment::Instance(num(v)? as u16),
            "A" => Segment::Attribute(num(v)? as u16),
            "E" => Segment::Element(num(v)? as u32),
            "S" => Segment::Symbol(
                String::from_utf8(raw(if v.is_empty() { "-" } else { v })).map_err(|_| "symbol is not UTF-8".to_string())?,
            ),
            "P" => {
                let (a, b) = v.split_once(':').ok_or("port")?;
                Segment::Port(PortSegment { port: num(a)? as u16, link: Bytes::from(raw(if b.is_empty() { "-" } else { b })) })
            }
            _ => return Err(format!("segment {}", s)),
        });
    }
    Ok(p)
}
fn par(s: &str) -> Result<ConnectionParameters, String> {
    let v: Vec<u64> = s.split(',').map(num).collect::<Result<_, _>>()?;
    Ok(ConnectionParameters {
        connection_size: v[0] as u16,
        variable_length: if v[1] == 0 { VariableLength::Fixed } else { VariableLength::Variable },
        priority: [Priority::Low, Priority::High, Priority::Scheduled, Priority::Urgent][v[2] as usize],
        connection_type: [ConnectionType::Null, ConnectionType::Multicast, ConnectionType::P2P][v[3] as usize],
        redundant_owner: v[4] != 0,
    })
}
fn put<E: Encode>(v: E) -> String {
    match both_ways(v) {
        Ok((a, b, n)) if a[..] == b[..] && n == a.len() => format!("ok {}", flat(&a)),
        Ok((a, b, n)) => format!("ok-but {} by-value {} count {}", flat(&a), flat(&b), n),
        Err(p) => format!("panic {}", p),
    }
}
fn err(e: OracleError) -> String {
    match e {
        OracleError::Short { .. } => "err short".into(),
        OracleError::InvalidValue(t) if t.starts_with("expected one of 0,1,") => "err two-words".into(),
        e => match failed_status(&e) {
            Some(s) if s.words == 1 => format!("err status {} {}", s.general, s.word),
            Some(s) => format!("err status {} -", s.general),
            None => format!("err other {:?}", e),
        },
    }
}
fn st(s: &Status) -> String {
    format!("{} {}", s.general, s.extended.map(|x| x.to_string()).unwrap_or("-".into()))
}
fn fail(f: &ForwardRequestFail) -> String {
    format!(
        "{} {} {} {}",
        f.connection_serial_number,
        f.originator_vendor_id,
        f.originator_serial_number,
        f.remaining_path_size.map(|x| x.to_string()).unwrap_or("-".into())
    )
}
/// what was read, an error, or a panic
fn said<R>(read: impl FnOnce() -> Result<R, OracleError>, show: impl FnOnce(R) -> String) -> String {
    match guard(read) {
        Ok(Ok(r)) => format!("ok {}", show(r)),
        Ok(Err(e)) => err(e),
        Err(p) => format!("panic {}", p),
    }
}
fn forward<R>(m: &MessageReply<Either<R, ForwardRequestFail>>, show: impl FnOnce(&R) -> String) -> String {
    let data = match &m.data {
        Either::Left(v) => format!("success {}", show(v)),
        Either::Right(f) => format!("fail {}", fail(f)),
    };
    format!("{} {} {}", m.reply_service, st(&m.status), data)
}
fn walk(b: &[u8]) -> String {
    let text = |given| match given {
        Given::Item { service, status, data, .. } => format!("item {} {} {}", service, st(&status), flat(&data)),
        Given::Error(e) => err(e),
        Given::End => "end".into(),
        Given::Panic(p) => format!("panic {}", p),
    };
    format!("ok {}", bodies::walk(b).into_iter().map(text).collect::<Vec<_>>().join(" ; "))
}
fn line(t: &[&str]) -> Result<String, String> {
    let n = |i: usize| -> Result<u64, String> { num(t.get(i).ok_or("too few")?) };
    let s = |i: usize| -> Result<&str, String> { t.get(i).copied().ok_or("too few".to_string()) };
    Ok(match t[0] {
        "path" => put(path(&t[1..])?),
        "open" => put(OpenOptions {
            large_open: s(1)? == "large",
            priority_tick_time: n(2)? as u8,
            timeout_ticks: n(3)? as u8,
            o_t_connection_id: n(4)? as u32,
            t_o_connection_id: n(5)? as u32,
            connection_serial_number: n(6)? as u16,
            vendor_id: n(7)? as u16,
            originator_serial_number: n(8)? as u32,
            timeout_multiplier: n(9)? as u8,
            o_t_rpi: n(10)? as u32,
            o_t_params: par(s(11)?)?,
            t_o_rpi: n(12)? as u32,
            t_o_params: par(s(13)?)?,
            transport_direction: [Direction::Client, Direction::Server][n(14)? as usize],
            transport_trigger: [TriggerType::Cyclic, TriggerType::ChangeOfState, TriggerType::Application][n(15)? as usize],
            transport_class: {
                use TransportClass::*;
                [Class0, Class1, Class2, Class3, Class4, Class5, Class6][n(16)? as usize]
            },
            connection_path: path(&t[17..])?,
        }),
        "close" => put(ForwardCloseRequest {
            priority_time_ticks: n(1)? as u8,
            timeout_ticks: n(2)? as u8,
            connection_serial_number: n(3)? as u16,
            originator_vendor_id: n(4)? as u16,
            originator_serial_number: n(5)? as u32,
            connection_path: path(&t[6..])?,
        }),
        "msg" => put(MessageRequest::new(n(1)? as u8, path(&t[3..])?, Bytes::from(raw(s(2)?)))),
        "unsend" => {
            let cut = t.iter().position(|x| *x == "/").ok_or("no /")?;
            put(UnconnectedSend {
                priority_ticks: n(1)? as u8,
                timeout_ticks: n(2)? as u8,
                path: path(&t[cut + 1..])?,
                data: MessageRequest::new(n(3)? as u8, path(&t[5..cut])?, Bytes::from(raw(s(4)?))),
            })
        }
        "body" => put(body_of(t[1..].iter().map(|x| Bytes::from(raw(x))))),
        "hdr" => {
            let b = raw(s(1)?);
            let mut d = dec(&b);
            said(
                || decode_service_and_status(&mut d).map(|(v, x)| (v, x, d.buf().to_vec())),
                |(v, x, rest)| format!("{} {} {}", v, st(&x), flat(&rest)),
            )
        }
        "fopen" => {
            let b = raw(s(1)?);
            said(
                || ForwardOpenReply::decode(dec(&b)),
                |r| {
                    forward(&r.0, |v| {
                        format!(
                            "{} {} {} {} {} {} {} {}",
                            v.o_t_connection_id,
                            v.t_o_connection_id,
                            v.connection_serial_number,
                            v.originator_vendor_id,
                            v.originator_serial_number,
                            v.o_t_api,
                            v.t_o_api,
                            flat(&v.app_data)
                        )
                    })
                },
            )
        }
        "fclose" => {
            let b = raw(s(1)?);
            said(
                || ForwardCloseReply::decode(dec(&b)),
                |r| {
                    forward(&r.0, |v| {
                        let ids = (v.connection_serial_number, v.originator_vendor_id, v.originator_serial_number);
                        format!("{} {} {} {}", ids.0, ids.1, ids.2, flat(&v.app_data))
                    })
                },
            )
        }
        "routing" => format!(
            "ok {}",
            Status { general: n(1)? as u8, extended: if s(2)? == "-" { None } else { Some(n(2)? as u16) } }.is_routing_error()
        ),
        "walk" => walk(&raw(s(1)?)),
        "env0" => {
            let b = raw(s(1)?);
            said(
                || CommonPacketIter::new(dec(&b)).and_then(decode_unconnected_send::<_, MessageReply<Bytes>>),
                |m| format!("{} {} {}", m.reply_service, st(&m.status), flat(&m.data)),
            )
        }
        "env1" => {
            let b = raw(s(1)?);
            said(
                || CommonPacketIter::new(dec(&b)).and_then(decode_connected_send::<_, MessageReply<Bytes>>),
                |(k, m)| format!("count {} {} {} {}", k, m.reply_service, st(&m.status), flat(&m.data)),
            )
        }
        x => return Err(format!("command {}", x)),
    })
}
fn main() {
    quiet_panics();
    let so = std::io::stdout();
    let mut so = std::io::BufWriter::new(so.lock());
    for l in std::io::stdin().lock().lines() {
        let l = l.unwrap();
        let t: Vec<&str> = l.split_whitespace().collect();
        if t.is_empty() {
            continue;
        }
        let a = match guard(|| line(&t)) {
            Ok(Ok(a)) => a,
            Ok(Err(e)) => format!("na {}", e),
            Err(p) => format!("na bad line: {}", p),
        };
        writeln!(so, "{}", a).unwrap();
    }
}
