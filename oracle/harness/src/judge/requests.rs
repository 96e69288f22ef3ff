//! The judge on requests: the fields of a case, and the writers 10 to 15. The readers, 18 to 1B, are in the file below.

pub mod readers;

use super::fields::{answer, low_first, two, writer, Fields, Judged, LONGEST_RECORD};
use super::paths::{all, list};
use readers::{Form, LONGEST_PATH};

const MOST_SMALL_SIZE: u16 = 511;

struct Par {
    size: u16,
    variable: u8,
    priority: u8,
    kind: u8,
    owner: u8,
}

struct Open {
    prio: u8,
    ticks: u8,
    o_t_id: u32,
    t_o_id: u32,
    serial: u16,
    vendor: u16,
    originator: u32,
    multiplier: u8,
    o_t_rpi: u32,
    o_t: Par,
    t_o_rpi: u32,
    t_o: Par,
    direction: u8,
    trigger: u8,
    class: u8,
}

struct Close {
    prio: u8,
    ticks: u8,
    serial: u16,
    vendor: u16,
    originator: u32,
}

pub fn case(op: u8, f: &mut Fields) -> Option<Vec<u8>> {
    let done = match op {
        0x10..=0x14 => writer(record(op, f)?, f.room()?),
        0x15 => answer(Ok(vec![f.u8()? % 16])),
        0x18 => answer(readers::message(f.run()?)),
        0x19 => {
            let form = form(f)?;
            answer(readers::open(form, f.run()?))
        }
        0x1A => answer(readers::close(f.run()?)),
        _ => answer(readers::send(f.run()?)),
    };
    f.end()?;
    Some(done)
}

/// The fields of a writer's case up to its room: the record, or why there is none.
fn record(op: u8, f: &mut Fields) -> Option<Judged<Vec<u8>>> {
    Some(match op {
        0x10 => {
            let service = f.u8()?;
            let path = path(f)?;
            let data = f.run()?;
            path.and_then(|p| whole([vec![service, words(&p)], p, data.to_vec()].concat()))
        }
        0x11 => {
            let form = form(f)?;
            let o = open(f)?;
            path(f)?.and_then(|p| open_record(&o, form, p))
        }
        0x12 => {
            let c = close(f)?;
            path(f)?.and_then(|p| whole([close_fields(&c), vec![words(&p), 0], p].concat()))
        }
        0x13 => {
            let (prio, ticks, message) = (f.u8()?, f.u8()?, f.run()?);
            path(f)?.and_then(|p| send_record(prio, ticks, message, p))
        }
        _ => {
            let form = form(f)?;
            // port 1 with link 0, class 2, instance 1
            open_record(&default_open(f.u16()?), form, vec![1, 0, 0x20, 2, 0x24, 1])
        }
    })
}

// ---- the fields of a line ----

fn form(f: &mut Fields) -> Option<Form> {
    Some([Form::Small, Form::Large][f.upto(1)? as usize])
}

/// POOL and LIST: the path's bytes, or why there are none. Count, segments, then the limit behind a size byte.
fn path(f: &mut Fields) -> Option<Judged<Vec<u8>>> {
    let pool = f.run()?;
    let list = list(f)?;
    Some(all(&list, pool).and_then(|p| if p.len() > LONGEST_PATH { Err(3) } else { Ok(p) }))
}

fn par(f: &mut Fields) -> Option<Par> {
    Some(Par { size: f.u16()?, variable: f.upto(1)?, priority: f.upto(3)?, kind: f.upto(2)?, owner: f.upto(1)? })
}

fn open(f: &mut Fields) -> Option<Open> {
    Some(Open {
        prio: f.u8()?,
        ticks: f.u8()?,
        o_t_id: f.u32()?,
        t_o_id: f.u32()?,
        serial: f.u16()?,
        vendor: f.u16()?,
        originator: f.u32()?,
        multiplier: f.u8()?,
        o_t_rpi: f.u32()?,
        o_t: par(f)?,
        t_o_rpi: f.u32()?,
        t_o: par(f)?,
        direction: f.upto(1)?,
        trigger: f.upto(2)?,
        class: f.upto(6)?,
    })
}

fn close(f: &mut Fields) -> Option<Close> {
    Some(Close { prio: f.u8()?, ticks: f.u8()?, serial: f.u16()?, vendor: f.u16()?, originator: f.u32()? })
}

// ---- the writers ----

/// A path's size in words; the path is within its limit.
fn words(path: &[u8]) -> u8 {
    (path.len() / 2) as u8
}

/// The limit on the whole comes before other fields, and before the room.
fn whole(record: Vec<u8>) -> Judged<Vec<u8>> {
    if record.len() > LONGEST_RECORD {
        Err(3)
    } else {
        Ok(record)
    }
}

fn open_record(o: &Open, form: Form, path: Vec<u8>) -> Judged<Vec<u8>> {
    let word = |p: &Par| match form {
        Form::Small => two(small_word(p)),
        Form::Large => low_first(large_word(p)),
    };
    let b = whole(
        [
            vec![o.prio, o.ticks],
            low_first(o.o_t_id),
            low_first(o.t_o_id),
            two(o.serial),
            two(o.vendor),
            low_first(o.originator),
            vec![o.multiplier, 0, 0, 0],
            low_first(o.o_t_rpi),
            word(&o.o_t),
            low_first(o.t_o_rpi),
            word(&o.t_o),
            vec![o.direction * 128 + o.trigger * 16 + o.class, words(&path)],
            path,
        ]
        .concat(),
    )?;
    let over = |p: &Par| form == Form::Small && p.size > MOST_SMALL_SIZE;
    if over(&o.o_t) || over(&o.t_o) {
        return Err(3);
    }
    Ok(b)
}

/// Only a size within its limit is ever written; the mask keeps one past it from running into the other bits.
fn small_word(p: &Par) -> u16 {
    let bits = |n: u8, at: u32| u16::from(n) << at;
    p.size % 512 + bits(p.variable, 9) + bits(p.priority, 10) + bits(p.kind, 13) + bits(p.owner, 15)
}

fn large_word(p: &Par) -> u32 {
    let bits = |n: u8, at: u32| u32::from(n) << at;
    u32::from(p.size) + bits(p.variable, 25) + bits(p.priority, 26) + bits(p.kind, 29) + bits(p.owner, 31)
}

fn close_fields(c: &Close) -> Vec<u8> {
    [vec![c.prio, c.ticks], two(c.serial), two(c.vendor), low_first(c.originator)].concat()
}

fn send_record(prio: u8, ticks: u8, message: &[u8], path: Vec<u8>) -> Judged<Vec<u8>> {
    // a message whose length its field can't hold makes the whole too long
    let size = two(message.len() as u16);
    let pad = vec![0; message.len() % 2];
    whole([vec![prio, ticks], size, message.to_vec(), pad, vec![words(&path), 0], path].concat())
}

/// Document 01's card has its words and its total; the other fields are what the page `connection.rs` starts with.
fn default_open(serial: u16) -> Open {
    let par = || Par { size: 504, variable: 0, priority: 1, kind: 2, owner: 0 };
    Open {
        prio: 3,
        ticks: 250,
        o_t_id: 0,
        t_o_id: 0,
        serial,
        vendor: 255,
        originator: u32::MAX,
        multiplier: 3,
        o_t_rpi: 0x4240,
        o_t: par(),
        t_o_rpi: 0x4240,
        t_o: par(),
        direction: 1,
        trigger: 2,
        class: 3,
    }
}
