//! The record file of `best.rs`: its rows by element, and each domain text as the codes of its tree.
use crate::{Code, Job, P, Res};
use std::fs::File;
use std::io::Read;

pub const NEVER: u32 = u32::MAX; // does not concern the vehicle type
pub const ALWAYS: u32 = u32::MAX - 1;
#[derive(Clone, Copy)]
pub struct Row { pub id: u32, pub dirs: u32 }

pub struct Texts {
    pub codes: Vec<Code>,
    pub programs: Vec<(u32, u32)>, // of each id: where its codes are
    texts: Vec<(u32, u32)>,        // and where its text is
    slots: Vec<(u32, u32)>,        // hash, id + 1
    plain: bool,
}
impl Texts {
    #[inline(never)]
    fn id(&mut self, data: &[u8], from: usize, to: usize, hash: u64) -> Res<u32> {
        let mut slot = 0;
        let h32 = (hash >> 32) as u32;
        if !self.plain {
            slot = (hash >> 47) as usize;
            while self.slots[slot].1 != 0 {
                if self.slots[slot].0 == h32 {
                    let (a, b) = self.texts[self.slots[slot].1 as usize - 1];
                    if data[a as usize..b as usize] == data[from..to] { return Ok(self.slots[slot].1 - 1) }
                }
                slot = (slot + 1) & ((1 << 17) - 1);
            }
        }
        let at = self.codes.len() as u32;
        let mut p = P { b: &data[from..to], i: 0, leaves: 0, out: &mut self.codes };
        p.sum(0)?;
        if p.peek() != 0 || p.i != to - from { return Err(()) }
        let id = self.programs.len() as u32;
        self.programs.push((at, self.codes.len() as u32));
        self.texts.push((from as u32, to as u32));
        if !self.plain { self.slots[slot] = (h32, id + 1) }
        Ok(id)
    }
}

fn number(b: &[u8]) -> Res<u64> {
    if b.is_empty() || b.len() > 10 { return Err(()) }
    let mut v = 0;
    for c in b {
        if c.wrapping_sub(b'0') > 9 { return Err(()) }
        v = v * 10 + (c - b'0') as u64
    }
    Ok(v)
}
#[inline(never)]
fn serves(two: bool, b: &[u8], vehicle: u64) -> Res<bool> {
    let code = |b: &[u8]| if b.len() > 2 { Err(()) } else { number(b) };
    if let Ok(v) = code(b) { return Ok(v == 0 || v == vehicle) }
    if !two { return Err(()) }
    let (not, list) = match b.strip_prefix(b"!") { Some(rest) => (true, rest), None => (false, b) };
    let mut some = false;
    for c in list.split(|c| *c == b';') {
        let c = code(c)?;
        if c == 0 { return Err(()) }
        some |= c == vehicle;
    }
    Ok(some != not)
}

// Takes a field from after its first quote up to its last. An empty one alone in its line does not make the line empty.
fn quoted(data: &[u8], mut i: usize, out: &mut Vec<u8>) -> Res<usize> {
    let from = out.len();
    let alone = out.last().is_none_or(|c| *c == b'\n');
    loop {
        match data.get(i) {
            None => break,
            Some(b'"') if data.get(i + 1) == Some(&b'"') => return Err(()),
            Some(b'"') => { i += 1; break }
            Some(b',' | b'\n' | b'\r') => return Err(()),
            Some(c) => out.push(*c),
        }
        i += 1;
    }
    let ended = matches!(data.get(i), None | Some(b'\n' | b'\r'));
    if alone && ended && out.len() == from { Err(()) } else { Ok(i) }
}
// A text with quotes or CR, rewritten with neither: fields of an accepted file hold no comma or line end.
fn plain_text(data: &[u8]) -> Res<Vec<u8>> {
    let mut out = Vec::with_capacity(data.len() + 64);
    let (mut i, mut at_field) = (0, true);
    while i < data.len() {
        let c = data[i];
        i += 1;
        match c {
            b'"' if at_field => i = quoted(data, i, &mut out)?,
            b'\r' => out.push(b'\n'),
            _ => out.push(c),
        }
        at_field = c == b',' || c == b'\n' || c == b'\r';
    }
    Ok(out)
}

// The file's text and its length. Line ends follow it, so that eight bytes can be read at each place.
pub fn text_of(path: &str) -> Res<(Vec<u8>, usize)> {
    let mut file = File::open(path).map_err(|_| ())?;
    let size = file.metadata().map_err(|_| ())?.len() as usize;
    let mut data = Vec::with_capacity(size + 128);
    file.read_to_end(&mut data).map_err(|_| ())?;
    if data.len() > 16_777_216 { return Err(()) }
    if data.starts_with(b"\xef\xbb\xbf") { data.drain(..3); }
    let odd = data.chunks(4096).any(|c| c.iter().fold(0u8, |a, &c| a | (c == b'"') as u8 | (c == b'\r') as u8) != 0);
    if odd { data = plain_text(&data)? }
    let len = data.len();
    data.resize(len + 64, b'\n');
    Ok((data, len))
}

struct Reader<'a> { data: &'a [u8], at: usize }
impl Reader<'_> {
    fn eight(&self) -> u64 {
        u64::from_le_bytes(self.data[self.at..self.at + 8].try_into().unwrap())
    }
    fn comma(&mut self) -> Res<()> {
        if self.data[self.at] != b',' { return Err(()) }
        self.at += 1;
        Ok(())
    }
    // Whether the file is of version 2.
    fn header(&mut self) -> Res<bool> {
        while self.at + 64 < self.data.len() && self.data[self.at] == b'\n' { self.at += 1 }
        let rest = &self.data[self.at..];
        let two = rest.starts_with(b"element,direction,vehicles,domain\n");
        if !two && !rest.starts_with(b"element,direction,vehicle,domain\n") { return Err(()) }
        self.at += 33 + two as usize;
        Ok(two)
    }
    #[inline(always)]
    fn element(&mut self) -> Res<u64> {
        let from = self.at;
        let mut element = 0u64;
        while self.data[self.at].wrapping_sub(b'0') < 10 {
            element = element.wrapping_mul(10) + (self.data[self.at] - b'0') as u64;
            self.at += 1
        }
        if self.at == from || self.at - from > 10 { return Err(()) }
        self.comma()?;
        Ok(element)
    }
    #[inline(always)]
    fn directions(&mut self) -> Res<u32> {
        let (directions, length) = match self.eight() {
            x if x == u64::from_le_bytes(*b"positive") => (1, 8),
            x if x == u64::from_le_bytes(*b"negative") => (2, 8),
            x if x as u32 == u32::from_le_bytes(*b"both") => (3, 4),
            _ => return Err(()),
        };
        self.at += length;
        self.comma()?;
        Ok(directions)
    }
    #[inline(always)]
    fn serves(&mut self, two: bool, vehicle: u64) -> Res<bool> {
        let from = self.at;
        while self.data[self.at] != b',' {
            if self.data[self.at] == b'\n' { return Err(()) }
            self.at += 1
        }
        let serves = serves(two, &self.data[from..self.at], vehicle)?;
        self.at += 1;
        Ok(serves)
    }
    // Goes to the line's end, eight bytes at a time, and hashes what it passes.
    #[inline(always)]
    fn rest(&mut self) -> u64 {
        let mut hash = 0u64;
        loop {
            let x = self.eight();
            let y = x ^ 0x0a0a_0a0a_0a0a_0a0a;
            let found = y.wrapping_sub(0x0101_0101_0101_0101) & !y & 0x8080_8080_8080_8080;
            if found != 0 {
                let k = found.trailing_zeros() / 8;
                self.at += k as usize;
                if k == 0 { return hash }
                return (hash.rotate_left(5) ^ (x << (64 - 8 * k))).wrapping_mul(0x9e37_79b9_7f4a_7c15);
            }
            hash = (hash.rotate_left(5) ^ x).wrapping_mul(0x9e37_79b9_7f4a_7c15);
            self.at += 8;
        }
    }
}

pub struct Found { pub texts: Texts, pub rows: Vec<Row>, pub order: Vec<u64> }
pub fn found(data: &[u8], len: usize, job: &Job) -> Res<Found> {
    let mut reader = Reader { data, at: 0 };
    let two = reader.header()?;
    let slots = vec![(0, 0); if job.plain { 0 } else { 1 << 17 }];
    let mut texts = Texts { codes: Vec::with_capacity(1 << 14), programs: vec![], texts: vec![], slots, plain: job.plain };
    let mut rows: Vec<Row> = Vec::with_capacity(len / 32 + 16);
    let mut order: Vec<u64> = Vec::with_capacity(len / 32 + 16);
    let mut most = 0u64;
    while reader.at < len {
        if data[reader.at] == b'\n' { reader.at += 1; continue }
        if rows.len() == 65_536 { return Err(()) }
        let element = reader.element()?;
        let dirs = reader.directions()?;
        let serves = reader.serves(two, job.vehicle)?;
        let from = reader.at;
        let hash = reader.rest();
        let id = if reader.at == from { ALWAYS } else { texts.id(data, from, reader.at, hash)? };
        reader.at += 1;
        order.push(element << 17 | rows.len() as u64);
        rows.push(Row { id: if serves { id } else { NEVER }, dirs });
        most |= element;
    }
    Ok(Found { texts, rows, order: by_element(order, most) })
}

// Sorts by elements, eleven bits at a time.
fn by_element(mut order: Vec<u64>, most: u64) -> Vec<u64> {
    let mut other = vec![0u64; order.len()];
    let mut shift = 17;
    while shift < 17 + 64 - most.leading_zeros() {
        let mut places = [0u32; 2048];
        for x in &order { places[(x >> shift & 2047) as usize] += 1 }
        let mut sum = 0;
        for p in &mut places { let n = *p; *p = sum; sum += n }
        for x in &order {
            let p = &mut places[(x >> shift & 2047) as usize];
            other[*p as usize] = *x;
            *p += 1;
        }
        std::mem::swap(&mut order, &mut other);
        shift += 11;
    }
    order
}
