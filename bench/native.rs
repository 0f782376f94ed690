//! A plain, unproved native program for the main job, to compare speed and answers with: `native FILE FROM TO VEHICLE`. It
//! makes the schedule of a record file by whole lists of spans. It expects good input (lines that end in LF or CR LF, no
//! quotes inside fields): for anything else it prints `fault` and ends with status 1.
use std::io::Write;

const DAY: i64 = 86_400;

#[derive(Clone, Default, Debug)]
struct Start {
    y: Option<i64>,
    mo: Option<i64>,
    w: Option<i64>,
    f: Option<(i64, i64)>,
    l: Option<(i64, i64)>,
    d: Option<i64>,
    t: u8,
    h: Option<i64>,
    mi: Option<i64>,
    s: Option<i64>,
}
#[derive(Clone, Default, Debug)]
struct Dur {
    y: i64,
    mo: i64,
    w: i64,
    d: i64,
    h: i64,
    mi: i64,
    s: i64,
}
#[derive(Clone, Debug)]
enum Expr {
    Leaf(Start, Dur),
    Join(u8, Box<Expr>, Box<Expr>),
}
type Res<T> = Result<T, ()>;

struct P<'a> {
    b: &'a [u8],
    i: usize,
}
impl<'a> P<'a> {
    fn ws(&mut self) {
        while self.i < self.b.len() && self.b[self.i] == b' ' {
            self.i += 1
        }
    }
    fn peek(&mut self) -> u8 {
        self.ws();
        *self.b.get(self.i).unwrap_or(&0)
    }
    fn eat(&mut self, c: u8) -> Res<()> {
        if self.peek() == c {
            self.i += 1;
            Ok(())
        } else {
            Err(())
        }
    }
    fn expr(&mut self) -> Res<Expr> {
        let mut e = self.term()?;
        loop {
            let c = self.peek();
            if c == b'+' || c == b'-' {
                self.i += 1;
                let r = self.term()?;
                e = Expr::Join(c, Box::new(e), Box::new(r))
            } else {
                return Ok(e);
            }
        }
    }
    fn term(&mut self) -> Res<Expr> {
        let mut e = self.item()?;
        while self.peek() == b'*' {
            self.i += 1;
            let r = self.item()?;
            e = Expr::Join(b'*', Box::new(e), Box::new(r))
        }
        Ok(e)
    }
    fn item(&mut self) -> Res<Expr> {
        if self.peek() == b'[' {
            self.i += 1;
            let e = self.expr()?;
            self.eat(b']')?;
            return Ok(e);
        }
        self.eat(b'(')?;
        let mut s = Start::default();
        let mut seen = [false; 256];
        let mut n = 0;
        while self.peek() != b')' {
            let (c, v, k) = self.field()?;
            if seen[c as usize] && c != b't' {
                return Err(());
            }
            seen[c as usize] = true;
            n += 1;
            let r = |lo: i64, hi: i64| {
                if v >= lo && v <= hi {
                    Ok(Some(v))
                } else {
                    Err(())
                }
            };
            let pair = || {
                if k == 2 && (1..=5).contains(&(v / 10)) && (1..=7).contains(&(v % 10)) {
                    Ok(Some((v / 10, v % 10)))
                } else {
                    Err(())
                }
            };
            match c {
                b'y' => {
                    if k != 4 {
                        return Err(());
                    }
                    s.y = Some(v)
                }
                b'M' => s.mo = r(1, 12)?,
                b'w' => s.w = r(1, 53)?,
                b'f' => s.f = pair()?,
                b'l' => s.l = pair()?,
                b'd' => s.d = r(1, 31)?,
                b't' => {
                    r(1, 7)?;
                    s.t |= 1 << (v - 1)
                }
                b'h' => s.h = r(0, 23)?,
                b'm' => s.mi = r(0, 59)?,
                b's' => s.s = r(0, 59)?,
                _ => return Err(()),
            }
        }
        if n == 0 {
            return Err(());
        }
        self.eat(b')')?;
        self.eat(b'{')?;
        let mut d = Dur::default();
        let mut seen = [false; 256];
        let mut n = 0;
        while self.peek() != b'}' {
            let (c, v, _) = self.field()?;
            if seen[c as usize] {
                return Err(());
            }
            seen[c as usize] = true;
            n += 1;
            match c {
                b'y' => d.y = v,
                b'M' => d.mo = v,
                b'w' => d.w = v,
                b'd' => d.d = v,
                b'h' => d.h = v,
                b'm' => d.mi = v,
                b's' => d.s = v,
                _ => return Err(()),
            }
        }
        if n == 0 {
            return Err(());
        }
        self.eat(b'}')?;
        if bound(&d) > 3_162_240_000 {
            return Err(());
        }
        Ok(Expr::Leaf(s, d))
    }
    fn field(&mut self) -> Res<(u8, i64, usize)> {
        let c = self.peek();
        if c == 0 {
            return Err(());
        }
        self.i += 1;
        let from = self.i;
        let mut v = 0;
        while self.i < self.b.len() && self.b[self.i].is_ascii_digit() && self.i - from < 7 {
            v = v * 10 + (self.b[self.i] - b'0') as i64;
            self.i += 1
        }
        let k = self.i - from;
        if k == 0 || k > 6 {
            return Err(());
        }
        Ok((c, v, k))
    }
}
fn parse(b: &[u8]) -> Res<Expr> {
    let mut p = P { b, i: 0 };
    let e = p.expr()?;
    if p.peek() == 0 && p.i == b.len() {
        Ok(e)
    } else {
        Err(())
    }
}
fn bound(d: &Dur) -> i64 {
    DAY * (366 * d.y + 31 * d.mo + 7 * d.w + d.d) + 3600 * d.h + 60 * d.mi + d.s
}

fn civil(n: i64) -> (i64, i64, i64) {
    let z = n + 719_468;
    let era = z.div_euclid(146_097);
    let doe = z.rem_euclid(146_097);
    let yoe = (doe - doe / 1460 + doe / 36_524 - doe / 146_096) / 365;
    let doy = doe - (365 * yoe + yoe / 4 - yoe / 100);
    let mp = (5 * doy + 2) / 153;
    let d = doy - (153 * mp + 2) / 5 + 1;
    let m = if mp < 10 { mp + 3 } else { mp - 9 };
    (yoe + era * 400 + (m <= 2) as i64, m, d)
}
fn days(y: i64, m: i64, d: i64) -> i64 {
    let y = if m <= 2 { y - 1 } else { y };
    let era = y.div_euclid(400);
    let yoe = y.rem_euclid(400);
    let doy = (153 * (if m > 2 { m - 3 } else { m + 9 }) + 2) / 5 + d - 1;
    era * 146_097 + yoe * 365 + yoe / 4 - yoe / 100 + doy - 719_468
}
fn leap(y: i64) -> bool {
    y % 4 == 0 && (y % 100 != 0 || y % 400 == 0)
}
fn mlen(y: i64, m: i64) -> i64 {
    match m {
        2 => 28 + leap(y) as i64,
        4 | 6 | 9 | 11 => 30,
        _ => 31,
    }
}
fn stop(d: &Dur, b: i64) -> i64 {
    let n = b.div_euclid(DAY);
    let clock = b.rem_euclid(DAY);
    let n = if d.y == 0 && d.mo == 0 {
        n
    } else {
        let (y, m, dd) = civil(n);
        let k = y * 12 + m - 1 + 12 * d.y + d.mo;
        let (y, m) = (k.div_euclid(12), k.rem_euclid(12) + 1);
        days(y, m, dd.min(mlen(y, m)))
    };
    (n + 7 * d.w + d.d) * DAY + clock + 3600 * d.h + 60 * d.mi + d.s
}

struct Starts {
    s: Start,
    clocks: Vec<i64>,
    day: i64,
    to: i64,
    at: usize,
    live: bool,
    finest: u8,
}
impl Starts {
    fn new(s: &Start, from: i64, to: i64) -> Starts {
        let finest = if s.s.is_some() {
            5
        } else if s.mi.is_some() {
            4
        } else if s.h.is_some() {
            3
        } else if s.d.is_some() || s.t != 0 || s.f.is_some() || s.l.is_some() {
            2
        } else if s.mo.is_some() || s.w.is_some() {
            1
        } else {
            0
        };
        let all = |v: Option<i64>, lv: u8, n: i64| -> Vec<i64> {
            match v {
                Some(x) => vec![x],
                None if finest > lv => (0..n).collect(),
                None => vec![0],
            }
        };
        let mut clocks = vec![];
        for &h in &all(s.h, 3, 24) {
            for &m in &all(s.mi, 4, 60) {
                for &x in &all(s.s, 5, 60) {
                    clocks.push(h * 3600 + m * 60 + x)
                }
            }
        }
        Starts {
            s: s.clone(),
            clocks,
            day: from - 1,
            to,
            at: 0,
            live: false,
            finest,
        }
    }
    fn matches(&self, n: i64) -> bool {
        let s = &self.s;
        let t = (n + 4).rem_euclid(7) + 1;
        if s.t != 0 && s.t & (1 << (t - 1)) == 0 {
            return false;
        }
        let (y, m, d) = civil(n);
        if s.mo.is_some_and(|x| x != m) || s.d.is_some_and(|x| x != d) {
            return false;
        }
        if s.f.is_some_and(|x| x != ((d - 1) / 7 + 1, t))
            || s.l.is_some_and(|x| x != ((mlen(y, m) - d) / 7 + 1, t))
        {
            return false;
        }
        if let Some(w) = s.w {
            let th = n - (n + 3).rem_euclid(7) + 3;
            let wy = civil(th).0;
            let wk = (th - days(wy, 1, 1)) / 7 + 1;
            if wk != w || s.y.is_some_and(|x| x != wy) {
                return false;
            }
            if self.finest < 2 && t != 2 {
                return false;
            }
        } else {
            if s.y.is_some_and(|x| x != y) {
                return false;
            }
            if self.finest < 2 && d != 1 {
                return false;
            }
        }
        !(self.finest < 1 && m != 1)
    }
}
impl Iterator for Starts {
    type Item = i64;
    fn next(&mut self) -> Option<i64> {
        loop {
            if self.live && self.at < self.clocks.len() {
                self.at += 1;
                return Some(self.day * DAY + self.clocks[self.at - 1]);
            }
            self.day += 1;
            if self.day >= self.to {
                self.day = self.to;
                self.live = false;
                return None;
            }
            self.live = self.matches(self.day);
            self.at = 0;
        }
    }
}
type Spans = Vec<(i64, i64)>;
fn leaf(s: &Start, d: &Dur, lo: i64, hi: i64) -> Spans {
    let look = (bound(d) + DAY - 1) / DAY;
    let mut out: Spans = vec![];
    for b in Starts::new(s, lo - look, hi) {
        let (a, e) = (b.max(lo * DAY), stop(d, b).min(hi * DAY));
        if a >= e {
            continue;
        }
        match out.last_mut() {
            Some(l) if a <= l.1 => l.1 = l.1.max(e),
            _ => out.push((a, e)),
        }
    }
    out
}
fn combine(op: u8, x: &Spans, y: &Spans) -> Spans {
    let (mut i, mut j, mut out, mut begun) = (0, 0, Spans::new(), None);
    loop {
        let ex = if i / 2 < x.len() {
            if i % 2 == 0 {
                x[i / 2].0
            } else {
                x[i / 2].1
            }
        } else {
            i64::MAX
        };
        let ey = if j / 2 < y.len() {
            if j % 2 == 0 {
                y[j / 2].0
            } else {
                y[j / 2].1
            }
        } else {
            i64::MAX
        };
        let at = ex.min(ey);
        if at == i64::MAX {
            return out;
        }
        if ex == at {
            i += 1
        }
        if ey == at {
            j += 1
        }
        let (a, b) = (i % 2 == 1, j % 2 == 1);
        let now = match op {
            b'+' => a || b,
            b'*' => a && b,
            _ => a && !b,
        };
        match (begun, now) {
            (None, true) => begun = Some(at),
            (Some(f), false) => {
                out.push((f, at));
                begun = None
            }
            _ => {}
        }
    }
}
fn spans(e: &Expr, lo: i64, hi: i64) -> Spans {
    match e {
        Expr::Leaf(s, d) => leaf(s, d, lo, hi),
        Expr::Join(op, a, b) => combine(*op, &spans(a, lo, hi), &spans(b, lo, hi)),
    }
}

fn stamp(s: i64, out: &mut Vec<u8>) {
    let (y, m, d) = civil(s.div_euclid(DAY));
    let c = s.rem_euclid(DAY);
    let two = |v: i64, out: &mut Vec<u8>| {
        out.push(b'0' + (v / 10) as u8);
        out.push(b'0' + (v % 10) as u8)
    };
    two(y / 100, out);
    two(y % 100, out);
    out.push(b'-');
    two(m, out);
    out.push(b'-');
    two(d, out);
    out.push(b'T');
    two(c / 3600, out);
    out.push(b':');
    two(c / 60 % 60, out);
    out.push(b':');
    two(c % 60, out);
}
fn read_date(b: &[u8]) -> i64 {
    let n = |r: std::ops::Range<usize>| std::str::from_utf8(&b[r]).unwrap().parse::<i64>().unwrap();
    days(n(0..4), n(5..7), n(8..10))
}
struct Rec {
    element: u64,
    dir: u8,
    not: bool,
    set: u128,
    tree: Option<Expr>,
}
fn records(data: &[u8]) -> Res<Vec<Rec>> {
    let data = data.strip_prefix(b"\xef\xbb\xbf").unwrap_or(data);
    let mut out = vec![];
    let mut lines = data
        .split(|c| *c == b'\n')
        .map(|l| l.strip_suffix(b"\r").unwrap_or(l))
        .filter(|l| !l.is_empty());
    let two = match lines.next() {
        Some(b"element,direction,vehicle,domain") => false,
        Some(b"element,direction,vehicles,domain") => true,
        _ => return Err(()),
    };
    for l in lines {
        let f: Vec<&[u8]> = l
            .split(|c| *c == b',')
            .map(|x| {
                x.strip_prefix(b"\"")
                    .and_then(|x| x.strip_suffix(b"\""))
                    .unwrap_or(x)
            })
            .collect();
        if f.len() != 4 {
            return Err(());
        }
        let num = |x: &[u8]| {
            std::str::from_utf8(x)
                .map_err(|_| ())?
                .parse::<u64>()
                .map_err(|_| ())
        };
        let dir = match f[1] {
            b"positive" => 1,
            b"negative" => 2,
            b"both" => 3,
            _ => return Err(()),
        };
        let (not, body) = match f[2].strip_prefix(b"!") {
            Some(b) if two => (true, b),
            _ => (false, f[2]),
        };
        let mut set = 0u128;
        for c in body.split(|c| *c == b';') {
            let c = num(c)?;
            if c == 0 {
                set = u128::MAX
            } else {
                set |= 1 << c
            }
        }
        out.push(Rec {
            element: num(f[0])?,
            dir,
            not,
            set,
            tree: if f[3].is_empty() {
                None
            } else {
                Some(parse(f[3])?)
            },
        });
    }
    Ok(out)
}
fn open(rs: &[&Rec], dir: u8, v: u32, lo: i64, hi: i64) -> Spans {
    let mut closed: Spans = vec![];
    for r in rs {
        if r.dir & dir != 0 && ((r.set >> v) & 1 == 1) != r.not {
            match &r.tree {
                None => closed.push((lo * DAY, hi * DAY)),
                Some(e) => closed.extend(spans(e, lo, hi)),
            }
        }
    }
    closed.sort();
    let mut flat: Spans = vec![];
    for (a, e) in closed {
        match flat.last_mut() {
            Some(l) if a <= l.1 => l.1 = l.1.max(e),
            _ => flat.push((a, e)),
        }
    }
    combine(b'-', &vec![(lo * DAY, hi * DAY)], &flat)
}
fn main() {
    if run().is_err() {
        println!("fault");
        std::process::exit(1)
    }
}
fn run() -> Res<()> {
    let w: Vec<Vec<u8>> = std::env::args_os()
        .skip(1)
        .map(|x| std::os::unix::ffi::OsStringExt::into_vec(x))
        .collect();
    let text = |i: usize| String::from_utf8_lossy(&w[i]).into_owned();
    let mut out = vec![];
    let mut rs = records(&std::fs::read(text(0)).map_err(|_| ())?)?;
    let (lo, hi) = (read_date(&w[1]), read_date(&w[2]));
    let v: u32 = text(3).parse().map_err(|_| ())?;
    rs.sort_by_key(|r| r.element);
    out.extend(b"element,direction,vehicle,from,until\n");
    let so = std::io::stdout();
    let mut so = so.lock();
    for g in rs.chunk_by(|a, b| a.element == b.element) {
        let g: Vec<&Rec> = g.iter().collect();
        for (dir, name) in [(1, "positive"), (2, "negative")] {
            let head = format!("{},{},{},", g[0].element, name, v);
            for (a, e) in open(&g, dir, v, lo, hi) {
                out.extend(head.bytes());
                stamp(a, &mut out);
                out.push(b',');
                stamp(e, &mut out);
                out.push(b'\n');
                if out.len() > 1 << 16 {
                    so.write_all(&out).map_err(|_| ())?;
                    out.clear()
                }
            }
        }
    }
    so.write_all(&out).map_err(|_| ())
}
