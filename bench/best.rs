//! An unproved native program for the main job, as fast as we could make it with one thread:
//! `best FILE FROM TO VEHICLE [plain]`. For an accepted file it prints the same bytes as `gtd schedule`. For any other it
//! prints nothing, and ends with status 1.
//!
//! What makes it fast: the file is read at once and parsed by hand. A time is a day of the horizon and a clock, packed into
//! one number, so that no line needs a division. Equal domain texts are read and evaluated once, which `plain` turns off.
//! Days are matched by one mask and one comparison on a table of packed dates. A stretch without months ends a constant time
//! after its start. Dates and clocks are copied from tables.
#![allow(long_running_const_eval)]
mod best_file;
use best_file::{ALWAYS, Found, NEVER, Texts, found, text_of};
use std::fs::File;
use std::io::Write;
use std::os::fd::FromRawFd;

type Span = (i64, i64);
type Res<T> = Result<T, ()>;
const SHIFT: u32 = 17;
const CLOCK: i64 = (1 << SHIFT) - 1;

// "hh:mm:ss" of each second of a day.
static CLOCKS: [[u8; 8]; 86_401] = {
    let mut t = [[0u8; 8]; 86_401];
    let mut i = 0;
    while i < 86_400 {
        let (h, m, s) = (i / 3600, i / 60 % 60, i % 60);
        t[i] = [
            b'0' + (h / 10) as u8, b'0' + (h % 10) as u8, b':',
            b'0' + (m / 10) as u8, b'0' + (m % 10) as u8, b':',
            b'0' + (s / 10) as u8, b'0' + (s % 10) as u8,
        ];
        i += 1;
    }
    t
};

fn days(y: i64, m: i64, d: i64) -> i64 {
    let y = if m <= 2 { y - 1 } else { y };
    let era = y.div_euclid(400);
    let yoe = y.rem_euclid(400);
    let doy = (153 * (if m > 2 { m - 3 } else { m + 9 }) + 2) / 5 + d - 1;
    era * 146_097 + yoe * 365 + yoe / 4 - yoe / 100 + doy - 719_468
}
fn civil(n: i64) -> (i64, i64, i64) {
    let z = n + 719_468;
    let era = z.div_euclid(146_097);
    let doe = z.rem_euclid(146_097);
    let yoe = (doe - doe / 1460 + doe / 36_524 - doe / 146_096) / 365;
    let doy = doe - (365 * yoe + yoe / 4 - yoe / 100);
    let mp = (5 * doy + 2) / 153;
    let d = doy - (153 * mp + 2) / 5 + 1;
    let m = if mp < 10 { mp + 3 } else { mp - 9 };
    (yoe + era * 400 + (m <= 2) as i64, m, d)
}
fn mlen(y: i64, m: i64) -> i64 {
    match m {
        2 => 28 + (y % 4 == 0 && (y % 100 != 0 || y % 400 == 0)) as i64,
        4 | 6 | 9 | 11 => 30,
        _ => 31,
    }
}

// ---- domains -------------------------------------------------------------------------------------------------------

#[derive(Clone, Copy)]
struct Start { y: i64, mo: i64, w: i64, f: i64, l: i64, d: i64, t: u32, h: i64, mi: i64, s: i64 }
#[derive(Clone, Copy)]
struct Dur { months: i64, days: i64, clock: i64, look: i64 }
#[derive(Clone, Copy)]
enum Code { Leaf(Start, Dur), Join(u8) }

struct P<'a> { b: &'a [u8], i: usize, leaves: usize, out: &'a mut Vec<Code> }
impl P<'_> {
    #[inline(always)]
    fn peek(&mut self) -> u8 {
        while self.i < self.b.len() && self.b[self.i] == b' ' { self.i += 1 }
        if self.i < self.b.len() { self.b[self.i] } else { 0 }
    }
    fn eat(&mut self, c: u8) -> Res<()> {
        if self.peek() == c { self.i += 1; Ok(()) } else { Err(()) }
    }
    fn sum(&mut self, depth: u32) -> Res<()> {
        self.product(depth)?;
        loop {
            let c = self.peek();
            if c != b'+' && c != b'-' { return Ok(()) }
            self.i += 1;
            self.product(depth)?;
            self.out.push(Code::Join(c));
        }
    }
    fn product(&mut self, depth: u32) -> Res<()> {
        self.item(depth)?;
        while self.peek() == b'*' {
            self.i += 1;
            self.item(depth)?;
            self.out.push(Code::Join(b'*'));
        }
        Ok(())
    }
    fn item(&mut self, depth: u32) -> Res<()> {
        if self.peek() == b'[' {
            if depth == 128 { return Err(()) }
            self.i += 1;
            self.sum(depth + 1)?;
            return self.eat(b']');
        }
        self.basic()
    }
    #[inline(always)]
    fn field(&mut self) -> Res<(u8, i64, usize)> {
        let c = self.peek();
        self.i += 1;
        let from = self.i;
        let mut v = 0i64;
        while self.i < self.b.len() && self.b[self.i].wrapping_sub(b'0') < 10 {
            v = v * 10 + (self.b[self.i] - b'0') as i64;
            self.i += 1;
            if self.i - from > 6 { return Err(()) }
        }
        if self.i == from || self.i > self.b.len() { return Err(()) }
        Ok((c, v, self.i - from))
    }
    fn basic(&mut self) -> Res<()> {
        self.eat(b'(')?;
        self.leaves += 1;
        if self.leaves > 128 { return Err(()) }
        let mut s = Start { y: -1, mo: -1, w: -1, f: -1, l: -1, d: -1, t: 0, h: -1, mi: -1, s: -1 };
        let mut n = 0;
        while self.peek() != b')' {
            let (c, v, k) = self.field()?;
            n += 1;
            let (slot, low, high) = match c {
                b'y' => { if k != 4 { return Err(()) } (&mut s.y, 0, 9999) }
                b'M' => (&mut s.mo, 1, 12),
                b'w' => (&mut s.w, 1, 53),
                b'f' | b'l' => {
                    if k != 2 || v / 10 < 1 || v / 10 > 5 || v % 10 < 1 || v % 10 > 7 { return Err(()) }
                    (if c == b'f' { &mut s.f } else { &mut s.l }, 0, 99)
                }
                b'd' => (&mut s.d, 1, 31),
                b't' => {
                    if v < 1 || v > 7 { return Err(()) }
                    s.t |= 1 << v;
                    continue;
                }
                b'h' => (&mut s.h, 0, 23),
                b'm' => (&mut s.mi, 0, 59),
                b's' => (&mut s.s, 0, 59),
                _ => return Err(()),
            };
            if *slot >= 0 || v < low || v > high { return Err(()) }
            *slot = v;
        }
        self.i += 1;
        self.eat(b'{')?;
        let mut u = [-1i64; 7];
        let mut k = 0;
        while self.peek() != b'}' {
            let (c, v, _) = self.field()?;
            k += 1;
            let Some(slot) = b"yMwdhms".iter().position(|x| *x == c) else { return Err(()) };
            if u[slot] >= 0 { return Err(()) }
            u[slot] = v;
        }
        self.i += 1;
        if n == 0 || k == 0 { return Err(()) }
        let u = u.map(|x| x.max(0));
        let clock = 3600 * u[4] + 60 * u[5] + u[6];
        let bound = 86_400 * (366 * u[0] + 31 * u[1] + 7 * u[2] + u[3]) + clock;
        if bound > 3_162_240_000 { return Err(()) }
        let d = Dur { months: 12 * u[0] + u[1], days: 7 * u[2] + u[3], clock, look: (bound + 86_399) / 86_400 };
        self.out.push(Code::Leaf(s, d));
        Ok(())
    }
}

// ---- days and their fields, packed -----------------------------------------------------------------------------------
// year 14 | month 4 | day 5 | weekday 3 | nth 3 | nth back 3 | week 6 | week year 14
const MO: u32 = 14;
const DA: u32 = 18;
const WD: u32 = 23;
const NF: u32 = 26;
const NL: u32 = 29;
const WE: u32 = 32;
const WY: u32 = 38;

struct Engine {
    lo: i64,
    hi: i64,
    first: i64,     // the day of keys[0]
    keys: Vec<u64>, // from first to hi
    clocks: Vec<(i64, i64)>,
    stack: Vec<Vec<Span>>,
    spare: Vec<Vec<Span>>,
}

fn keys(first: i64, until: i64) -> Vec<u64> {
    let mut out = Vec::with_capacity((until - first).max(0) as usize);
    let (mut y, mut m, mut d) = civil(first);
    let mut wd = (first + 4).rem_euclid(7) + 1;
    let (mut wy, mut wk) = (0, 0);
    let mut len = mlen(y, m);
    for n in first..until {
        if wd == 2 || n == first {
            let th = n - (n + 3).rem_euclid(7) + 3;
            wy = civil(th).0;
            wk = (th - days(wy, 1, 1)) / 7 + 1;
        }
        out.push(
            y as u64 | (m as u64) << MO | (d as u64) << DA | (wd as u64) << WD | (((d - 1) / 7 + 1) as u64) << NF
                | (((len - d) / 7 + 1) as u64) << NL | (wk as u64) << WE | (wy as u64) << WY,
        );
        wd = if wd == 7 { 1 } else { wd + 1 };
        d += 1;
        if d > len {
            d = 1;
            m += 1;
            if m == 13 { m = 1; y += 1 }
            len = mlen(y, m);
        }
    }
    out
}

impl Engine {
    fn reach_back(&mut self, from: i64) {
        if from < self.first {
            let first = from.min(self.first - (self.lo - self.first)).min(self.lo - 200);
            let mut all = keys(first, self.first);
            all.extend_from_slice(&self.keys);
            self.keys = all;
            self.first = first;
        }
    }
    // The runs of a basic domain within the horizon.
    fn leaf(&mut self, s: &Start, d: &Dur, out: &mut Vec<Span>) {
        let gives_day = s.d >= 0 || s.f >= 0 || s.l >= 0 || s.t != 0;
        let gives_clock = s.h >= 0 || s.mi >= 0 || s.s >= 0;
        let (mut from, mut until) = (self.lo - d.look, self.hi);
        let end = (self.hi - self.lo) << SHIFT;
        let field = |at: u32, bits: u32, v: i64, mask: &mut u64, want: &mut u64| {
            *mask |= ((1u64 << bits) - 1) << at;
            *want |= (v as u64) << at;
        };
        let (mut mask, mut want) = (0u64, 0u64);
        if s.y >= 0 {
            let (a, b) = if s.w >= 0 {
                field(WY, 14, s.y, &mut mask, &mut want);
                (days(s.y, 1, 1) - 7, days(s.y + 1, 1, 1) + 7)
            } else if s.mo >= 0 && s.d >= 0 {
                let n = days(s.y, s.mo, s.d);
                (n, n + 1)
            } else {
                (days(s.y, 1, 1), days(s.y + 1, 1, 1))
            };
            from = from.max(a);
            until = until.min(b);
            if s.w < 0 { field(0, 14, s.y, &mut mask, &mut want) }
        }
        if from >= until { return }
        if s.mo >= 0 {
            field(MO, 4, s.mo, &mut mask, &mut want)
        } else if !(s.w >= 0 || gives_day || gives_clock) {
            field(MO, 4, 1, &mut mask, &mut want)
        }
        if s.w >= 0 { field(WE, 6, s.w, &mut mask, &mut want) }
        if s.d >= 0 { field(DA, 5, s.d, &mut mask, &mut want) }
        let mut weekdays = if s.t != 0 { s.t } else { 0xfe };
        if s.f >= 0 {
            field(NF, 3, s.f / 10, &mut mask, &mut want);
            weekdays &= 1 << (s.f % 10);
        }
        if s.l >= 0 {
            field(NL, 3, s.l / 10, &mut mask, &mut want);
            weekdays &= 1 << (s.l % 10);
        }
        if !gives_day && !gives_clock {
            if s.w >= 0 { weekdays &= 1 << 2 } else { field(DA, 5, 1, &mut mask, &mut want) }
        }
        if weekdays == 0 { return }
        self.reach_back(from);
        // The clocks of a day, each with what its stretch adds.
        let mut clocks = std::mem::take(&mut self.clocks);
        clocks.clear();
        let levels = |v: i64, free: bool, n: i64| if v >= 0 { v..v + 1 } else if free { 0..n } else { 0..1 };
        for h in levels(s.h, s.mi >= 0 || s.s >= 0, 24) {
            for m in levels(s.mi, s.s >= 0, 60) {
                let c = 3600 * h + 60 * m + s.s.max(0);
                let total = c + d.clock;
                clocks.push((c, ((d.days + total / 86_400) << SHIFT | total % 86_400) - c));
            }
        }
        let (mut a, mut e) = (i64::MIN, i64::MIN);
        let first = self.first;
        let lo = self.lo;
        let mut take = |b: i64, x: i64| {
            if b <= e {
                e = e.max(x)
            } else {
                let (p, q) = (a.max(0), e.min(end));
                if p < q { out.push((p, q)) }
                a = b;
                e = x;
            }
        };
        let all = &self.keys[(from - first) as usize..(until - first) as usize];
        let mut at = (from - lo) << SHIFT;
        if d.months == 0 && clocks.len() == 1 {
            let (c, delta) = clocks[0];
            for key in all {
                if key & mask == want && weekdays >> (key >> WD & 7) & 1 == 1 { take(at | c, (at | c) + delta) }
                at += 1 << SHIFT;
            }
        } else {
            for key in all {
                if key & mask == want && weekdays >> (key >> WD & 7) & 1 == 1 {
                    let mut moved = 0;
                    if d.months != 0 {
                        let (y, m, dd) = ((key & 0x3fff) as i64, (key >> MO & 15) as i64, (key >> DA & 31) as i64);
                        let k = y * 12 + m - 1 + d.months;
                        let (y2, m2) = (k.div_euclid(12), k.rem_euclid(12) + 1);
                        moved = (days(y2, m2, dd.min(mlen(y2, m2))) - days(y, m, dd)) << SHIFT;
                    }
                    for &(c, delta) in &clocks { take(at | c, (at | c) + delta + moved) }
                }
                at += 1 << SHIFT;
            }
        }
        let (p, q) = (a.max(0), e.min(end));
        if p < q { out.push((p, q)) }
        self.clocks = clocks;
    }
    fn eval(&mut self, code: &[Code], out: &mut Vec<Span>) {
        if let [Code::Leaf(s, d)] = code { return self.leaf(s, d, out) }
        let mut stack = std::mem::take(&mut self.stack);
        let mut spare = std::mem::take(&mut self.spare);
        for c in code {
            match c {
                Code::Leaf(s, d) => {
                    let mut v = spare.pop().unwrap_or_default();
                    v.clear();
                    self.leaf(s, d, &mut v);
                    stack.push(v);
                }
                Code::Join(op) => {
                    let (y, x) = (stack.pop().unwrap(), stack.pop().unwrap());
                    let mut v = spare.pop().unwrap_or_default();
                    v.clear();
                    match op {
                        b'+' => unite(&x, &y, &mut v),
                        b'*' => meet(&x, &y, &mut v),
                        _ => minus(&x, &y, &mut v),
                    }
                    spare.push(x);
                    spare.push(y);
                    stack.push(v);
                }
            }
        }
        let v = stack.pop().unwrap();
        out.extend_from_slice(&v);
        spare.push(v);
        self.stack = stack;
        self.spare = spare;
    }
}
fn unite(x: &[Span], y: &[Span], out: &mut Vec<Span>) {
    if x.is_empty() { return out.extend_from_slice(y) }
    if y.is_empty() { return out.extend_from_slice(x) }
    let (mut i, mut j) = (0, 0);
    let (mut a, mut e) = (i64::MIN, i64::MIN);
    while i < x.len() || j < y.len() {
        let s = if j == y.len() || i < x.len() && x[i].0 <= y[j].0 { i += 1; x[i - 1] } else { j += 1; y[j - 1] };
        if s.0 <= e {
            e = e.max(s.1)
        } else {
            if a != i64::MIN { out.push((a, e)) }
            (a, e) = s;
        }
    }
    out.push((a, e));
}
// Replaces the lists by the unions of the first two, of the next two, and so on.
fn unite_pairs(from: &[Span], lists: &mut Vec<(usize, usize)>, out: &mut Vec<Span>) {
    out.clear();
    for i in 0..lists.len().div_ceil(2) {
        let at = out.len();
        let list = |k: usize| lists.get(k).map_or(&[][..], |x| &from[x.0..x.1]);
        unite(list(2 * i), list(2 * i + 1), out);
        lists[i] = (at, out.len());
    }
    lists.truncate(lists.len().div_ceil(2));
}
fn meet(x: &[Span], y: &[Span], out: &mut Vec<Span>) {
    let (mut i, mut j) = (0, 0);
    while i < x.len() && j < y.len() {
        let (a, e) = (x[i].0.max(y[j].0), x[i].1.min(y[j].1));
        if a < e { out.push((a, e)) }
        if x[i].1 <= y[j].1 { i += 1 } else { j += 1 }
    }
}
fn minus(x: &[Span], y: &[Span], out: &mut Vec<Span>) {
    let mut j = 0;
    for &(mut a, e) in x {
        while j < y.len() && y[j].1 <= a { j += 1 }
        while j < y.len() && y[j].0 < e {
            if a < y[j].0 { out.push((a, y[j].0)) }
            a = y[j].1;
            if a >= e { break }
            j += 1;
        }
        if a < e { out.push((a, e)) }
    }
}

// ---- output ----------------------------------------------------------------------------------------------------------

const ROOM: usize = 1 << 18;
struct Out { file: File, buf: Vec<u8>, len: usize, dates: Vec<[u8; 16]>, head: [u8; 32], head_len: usize, limit: usize }
impl Out {
    fn flush(&mut self) -> Res<()> {
        self.file.write_all(&self.buf[..self.len]).map_err(|_| ())?;
        self.len = 0;
        Ok(())
    }
    #[inline(always)]
    fn line(&mut self, a: i64, e: i64) -> Res<()> {
        if self.len > self.limit { self.flush()? }
        // SAFETY: `buf` has 128 bytes after `limit`; days are within `dates`, clocks below 86,400.
        unsafe {
            let p = self.buf.as_mut_ptr().add(self.len);
            std::ptr::copy_nonoverlapping(self.head.as_ptr(), p, 32);
            let q = p.add(self.head_len);
            let dates = self.dates.as_ptr();
            std::ptr::copy_nonoverlapping(dates.add((a >> SHIFT) as usize) as *const u8, q, 16);
            std::ptr::copy_nonoverlapping(CLOCKS.as_ptr().add((a & CLOCK) as usize) as *const u8, q.add(11), 8);
            *q.add(19) = b',';
            std::ptr::copy_nonoverlapping(dates.add((e >> SHIFT) as usize) as *const u8, q.add(20), 16);
            std::ptr::copy_nonoverlapping(CLOCKS.as_ptr().add((e & CLOCK) as usize) as *const u8, q.add(31), 8);
            *q.add(39) = b'\n';
        }
        self.len += self.head_len + 40;
        Ok(())
    }
    #[inline(never)]
    fn open_of_one(&mut self, x: &[Span], end: i64) -> Res<()> {
        let mut at = 0;
        for &(a, e) in x {
            if a > at { self.line(at, a)? }
            at = e;
        }
        if at < end { self.line(at, end)? }
        Ok(())
    }
    fn open_of_two(&mut self, mut x: &[Span], mut y: &[Span], end: i64) -> Res<()> {
        let mut at = 0;
        while let ([p, xs @ ..], [q, ys @ ..]) = (x, y) {
            let s = if p.0 <= q.0 { x = xs; *p } else { y = ys; *q };
            if s.0 > at { self.line(at, s.0)? }
            at = at.max(s.1);
        }
        for &(a, e) in if x.is_empty() { y } else { x } {
            if a > at { self.line(at, a)? }
            at = at.max(e);
        }
        if at < end { self.line(at, end)? }
        Ok(())
    }
}

// ---- the schedule ----------------------------------------------------------------------------------------------------

fn date_texts(lo: i64, hi: i64) -> Vec<[u8; 16]> {
    let digit = |v: u64| b'0' + v as u8;
    let text = |key: u64| {
        let (y, m, d) = (key & 0x3fff, key >> MO & 15, key >> DA & 31);
        let mut date = *b"    -  -  T     ";
        date[..4].copy_from_slice(&[digit(y / 1000), digit(y / 100 % 10), digit(y / 10 % 10), digit(y % 10)]);
        date[5..7].copy_from_slice(&[digit(m / 10), digit(m % 10)]);
        date[8..10].copy_from_slice(&[digit(d / 10), digit(d % 10)]);
        date
    };
    keys(lo, hi + 1).into_iter().map(text).collect()
}

// The lists of spans are kept in one arena: each text is evaluated once.
struct Printer {
    out: Out,
    engine: Engine,
    end: i64,
    vehicle: u64,
    arena: Vec<Span>,
    kept: Vec<(usize, usize)>,
    ids: Vec<u32>,
    lists: Vec<(usize, usize)>,
    one: Vec<Span>,
    sum: Vec<Span>,
}
impl Printer {
    fn new(job: &Job, texts: usize) -> Printer {
        let (lo, hi) = (job.lo, job.hi);
        // SAFETY: nothing else closes or uses standard output.
        let file = unsafe { File::from_raw_fd(1) };
        let dates = date_texts(lo, hi);
        let mut out = Out { file, buf: vec![0; ROOM + 128], len: 37, dates, head: [0; 32], head_len: 0, limit: ROOM };
        out.buf[..37].copy_from_slice(b"element,direction,vehicle,from,until\n");
        let engine = Engine { lo, hi, first: lo - 160, keys: keys(lo - 160, hi), clocks: vec![], stack: vec![], spare: vec![] };
        let kept = vec![(usize::MAX, 0); texts];
        let (end, vehicle) = ((hi - lo) << SHIFT, job.vehicle);
        Printer { out, engine, end, vehicle, arena: vec![], kept, ids: vec![], lists: vec![], one: vec![], sum: vec![] }
    }
    // Writes the element to the head of its lines, and returns its length.
    fn element(&mut self, mut element: u64) -> usize {
        let mut text = [0u8; 10];
        let mut k = 10;
        loop {
            k -= 1;
            text[k] = b'0' + (element % 10) as u8;
            element /= 10;
            if element == 0 { break }
        }
        self.out.head[..10 - k].copy_from_slice(&text[k..]);
        10 - k
    }
    fn direction(&mut self, n: usize, word: &[u8; 10]) {
        let head = &mut self.out.head;
        head[n..n + 10].copy_from_slice(word);
        let mut h = n + 10;
        if self.vehicle > 9 { head[h] = b'0' + (self.vehicle / 10) as u8; h += 1 }
        head[h] = b'0' + (self.vehicle % 10) as u8;
        head[h + 1] = b',';
        self.out.head_len = h + 2;
    }
    // The texts that close the direction; none if it is always closed.
    fn closing(&mut self, found: &Found, rows: &[u64], bit: u32) -> bool {
        self.ids.clear();
        for x in rows {
            let row = found.rows[(x & 0x1ffff) as usize];
            if row.id == NEVER || row.dirs & bit == 0 { continue }
            if row.id == ALWAYS { return false }
            self.ids.push(row.id);
        }
        true
    }
    fn evaluate(&mut self, texts: &Texts) {
        self.lists.clear();
        for &id in &self.ids {
            let mut place = self.kept[id as usize];
            if place.0 == usize::MAX {
                let a = self.arena.len();
                let (p, q) = texts.programs[id as usize];
                self.engine.eval(&texts.codes[p as usize..q as usize], &mut self.arena);
                place = (a, self.arena.len());
                self.kept[id as usize] = place;
            }
            if place.0 < place.1 { self.lists.push(place) }
        }
    }
    fn open(&mut self) -> Res<()> {
        let (out, arena, lists, end) = (&mut self.out, &self.arena, &mut self.lists, self.end);
        match lists[..] {
            [] => out.line(0, end),
            [x] => out.open_of_one(&arena[x.0..x.1], end),
            [x, y] => out.open_of_two(&arena[x.0..x.1], &arena[y.0..y.1], end),
            _ => {
                // The longest list is left for the walk over two. The others are united in pairs.
                lists.sort_unstable_by_key(|x| x.1 - x.0);
                let x = lists.pop().unwrap();
                unite_pairs(arena, lists, &mut self.sum);
                while lists.len() > 1 {
                    unite_pairs(&self.sum, lists, &mut self.one);
                    std::mem::swap(&mut self.sum, &mut self.one);
                }
                out.open_of_two(&self.sum, &arena[x.0..x.1], end)
            }
        }
    }
}

struct Job { lo: i64, hi: i64, vehicle: u64, plain: bool }
fn job(args: &[String]) -> Res<Job> {
    if args.len() < 4 { return Err(()) }
    let date = |s: &str| {
        let n = |a, b| s.get(a..b).and_then(|x| x.parse::<i64>().ok()).ok_or(());
        Ok(days(n(0, 4)?, n(5, 7)?, n(8, 10)?))
    };
    let (lo, hi) = (date(&args[1])?, date(&args[2])?);
    let vehicle: u64 = args[3].parse().map_err(|_| ())?;
    if hi <= lo || lo < -25_202 || hi > 266_627 || hi - lo > 146_098 || vehicle < 1 || vehicle > 99 { return Err(()) }
    Ok(Job { lo, hi, vehicle, plain: args.len() > 4 })
}

fn run() -> Res<()> {
    let args: Vec<String> = std::env::args().skip(1).collect();
    let job = job(&args)?;
    let (data, len) = text_of(&args[0])?;
    let found = found(&data, len, &job)?;
    let mut printer = Printer::new(&job, found.texts.programs.len());
    for rows in found.order.chunk_by(|a, b| a >> 17 == b >> 17) {
        let n = printer.element(rows[0] >> 17);
        if job.plain { printer.arena.clear() }
        for (bit, word) in [(1, b",positive,"), (2, b",negative,")] {
            if printer.closing(&found, rows, bit) {
                printer.evaluate(&found.texts);
                printer.direction(n, word);
                printer.open()?;
            }
        }
    }
    printer.out.flush()
}
fn main() {
    if run().is_err() { std::process::exit(1) }
}
