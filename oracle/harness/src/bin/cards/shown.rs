//! How cards and edges are shown, and what is written of the crate's values.
use bytes::Bytes;
use harness::*;
use rseip_cip::epath::*;

/// How many cards agree.
#[derive(Default)]
pub struct T {
    pub ok: u32,
    pub bad: u32,
}
impl T {
    pub fn card(&mut self, name: &str, want: &str, got: String) {
        let same = want == got;
        if same {
            self.ok += 1
        } else {
            self.bad += 1
        }
        println!("{} {}\n      want {}\n      rust {}", if same { "AGREE " } else { "DIFFER" }, name, want, got);
    }
    pub fn note(&self, name: &str, got: String) {
        println!("EDGE   {}\n      rust {}", name, got);
    }
}
pub fn short(b: &[u8]) -> String {
    if b.len() <= 48 {
        format!("[{}] {}", b.len(), hex(b))
    } else {
        format!("[{}] {} .. {}", b.len(), hex(&b[..14]), hex(&b[b.len() - 4..]))
    }
}
pub fn port(p: u16, l: &[u8]) -> Segment {
    Segment::Port(PortSegment { port: p, link: Bytes::copy_from_slice(l) })
}
pub fn segs(v: Vec<Segment>) -> EPath {
    EPath::from(v)
}
/// bytes by encode_by_ref, checked against encode (by value) and bytes_count
pub fn out<E: Encode>(v: E) -> String {
    match both_ways(v) {
        Ok((a, b, _)) if a[..] != b[..] => format!("{} (by value {})", short(&a), short(&b)),
        Ok((a, _, n)) if n != a.len() => format!("{} (bytes_count says {})", short(&a), n),
        Ok((a, ..)) => short(&a),
        Err(p) => format!("PANIC {}", p),
    }
}
