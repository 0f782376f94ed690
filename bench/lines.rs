//! Lines of a schedule, written in the ways that `bench/lines.py` compares: `lines WAY`.
//!
//! The spans are those of a week, each handed out again a week later, as `gtd` hands out kept spans, and the text of a line is
//! written over that of the line before, only where it differs, as `gtd` writes it.
use std::hint::black_box;
use std::io::{self, BufWriter, Write};

const DAY: i64 = 86_400;
/// 2024-01-01, a Monday.
const FIRST: i64 = 19_723 * DAY;
/// Each element has so many lines, and there are so many elements.
const LINES: u32 = 1_000;
const ELEMENTS: u32 = 500;
/// How many lines a block has.
const BLOCK: usize = 64;
const HEAD: &[u8] = b"1234567,positive,11,";
const MOMENTS: &[u8; 40] = b"2024-01-01T00:00:00,2024-01-01T00:00:00\n";
static PAIRS: [u8; 200] = *b"\
    0001020304050607080910111213141516171819202122232425262728293031323334353637383940414243444546474849\
    5051525354555657585960616263646566676869707172737475767778798081828384858687888990919293949596979899";

/// A month: its first second, and the seconds of the days that it has in every year.
#[derive(Clone, Copy)]
struct Month {
    begins: i64,
    seconds: u32,
}

/// What the text of a moment shows.
#[derive(Clone, Copy)]
struct Shown {
    month: Month,
    clock: u32,
    past_hour: u32,
}

const FIRST_SHOWN: Shown = Shown { month: Month { begins: FIRST, seconds: 31 * 86_400 }, clock: 0, past_hour: 0 };

#[inline(always)]
fn write_two(text: &mut [u8], place: usize, value: u32) {
    let at = 2 * value as usize;
    text[place] = PAIRS[at];
    text[place + 1] = PAIRS[at + 1];
}

/// Writes the day of a second, and answers the second of the day.
#[cold]
#[inline(never)]
fn write_whole_day(text: &mut [u8], month: &mut Month, second: i64) -> u32 {
    let day = second.div_euclid(DAY);
    let from_march = day + 719_468;
    let (era, of_era) = (from_march.div_euclid(146_097), from_march.rem_euclid(146_097));
    let year_of_era = (of_era - of_era / 1_460 + of_era / 36_524 - of_era / 146_096) / 365;
    let day_of_year = of_era - (365 * year_of_era + year_of_era / 4 - year_of_era / 100);
    let shifted = (5 * day_of_year + 2) / 153;
    let number = if shifted < 10 { shifted + 3 } else { shifted - 9 };
    let year = year_of_era + 400 * era + i64::from(number <= 2);
    let in_month = day_of_year - (153 * shifted + 2) / 5 + 1;
    write_two(text, 0, (year / 100) as u32);
    write_two(text, 2, (year % 100) as u32);
    write_two(text, 5, number as u32);
    write_two(text, 8, in_month as u32);
    let days = match number { 2 => 28, 4 | 6 | 9 | 11 => 30, _ => 31 };
    *month = Month { begins: DAY * (day + 1 - in_month), seconds: 86_400 * days };
    second.rem_euclid(DAY) as u32
}

#[inline(always)]
fn write_moment(text: &mut [u8], shown: &mut Shown, second: i64) {
    let since = second - shown.month.begins;
    let clock = if since < 0 || i64::from(shown.month.seconds) <= since {
        write_whole_day(text, &mut shown.month, second)
    } else {
        let since = since as u32;
        write_two(text, 8, since / 86_400 + 1);
        since % 86_400
    };
    if clock == shown.clock {
        return;
    }
    shown.clock = clock;
    let past_hour = clock % 3_600;
    write_two(text, 11, clock / 3_600);
    if past_hour != shown.past_hour {
        shown.past_hour = past_hour;
        write_two(text, 14, past_hour / 60);
        write_two(text, 17, past_hour % 60);
    }
}

/// The spans of an element: each night from 14:00 to 10:00.
struct Spans {
    kept: Vec<(i64, i64)>,
    place: usize,
    left: u32,
}

impl Spans {
    fn new() -> Spans {
        let kept = (0..7).map(|day| FIRST + day * DAY).map(|day| (day + 14 * 3_600, day + 34 * 3_600)).collect();
        Spans { kept, place: 0, left: LINES }
    }

    #[inline(always)]
    fn next(&mut self) -> Option<(i64, i64)> {
        self.left = self.left.checked_sub(1)?;
        let (from, until) = self.kept[self.place];
        let span = (from + 7 * DAY, until + 7 * DAY);
        self.kept[self.place] = span;
        self.place = if self.place + 1 == self.kept.len() { 0 } else { self.place + 1 };
        Some(span)
    }
}

/// The moments of the line before, with what they show.
struct Template {
    text: [u8; 40],
    from: Shown,
    until: Shown,
}

impl Template {
    fn new() -> Template {
        Template { text: *MOMENTS, from: FIRST_SHOWN, until: FIRST_SHOWN }
    }

    #[inline(always)]
    fn write(&mut self, (from, until): (i64, i64)) {
        let (first, last) = self.text.split_at_mut(20);
        write_moment(first, &mut self.from, from);
        write_moment(last, &mut self.until, until);
    }
}

/// Each line is put by itself.
fn one_by_one(mut out: impl Write) -> io::Result<()> {
    let mut line = [HEAD, MOMENTS].concat();
    let (mut spans, mut moments, mut written) = (Spans::new(), Template::new(), 0);
    while let Some(span) = spans.next() {
        moments.write(span);
        line[HEAD.len()..].copy_from_slice(&moments.text);
        if out.write(&line)? != line.len() {
            return Err(io::ErrorKind::WriteZero.into());
        }
        written += line.len();
    }
    black_box(written);
    Ok(())
}

/// Each line is put behind those of a block, which is put when it is full.
fn copied(mut out: impl Write) -> io::Result<()> {
    let mut line = [HEAD, MOMENTS].concat();
    let mut block = Vec::with_capacity(BLOCK * line.len());
    let (mut spans, mut moments) = (Spans::new(), Template::new());
    while let Some(span) = spans.next() {
        moments.write(span);
        line[HEAD.len()..].copy_from_slice(&moments.text);
        if block.len() + line.len() > block.capacity() {
            out.write_all(&block)?;
            block.clear();
        }
        block.extend_from_slice(&line);
    }
    out.write_all(&block)
}

/// A block has the head of each line from the start. Only the moments are put into it.
fn filled(mut out: impl Write) -> io::Result<()> {
    let line = [HEAD, MOMENTS].concat();
    let mut block = line.repeat(BLOCK);
    let (mut spans, mut moments, mut at) = (Spans::new(), Template::new(), 0);
    while let Some(span) = spans.next() {
        if at == block.len() {
            out.write_all(&block)?;
            at = 0;
        }
        moments.write(span);
        at += line.len();
        block[at - 40..at].copy_from_slice(&moments.text);
    }
    out.write_all(&block[..at])
}

/// No line is written.
fn none() -> io::Result<()> {
    let mut spans = Spans::new();
    while let Some(span) = spans.next() {
        black_box(span);
    }
    Ok(())
}

fn main() -> io::Result<()> {
    let way = std::env::args().nth(1).unwrap_or_default();
    let mut out = io::stdout().lock();
    let mut kept = BufWriter::with_capacity(65_536, io::stdout().lock());
    for _ in 0..ELEMENTS {
        match way.as_str() {
            "one" => one_by_one(&mut kept)?,
            "copied" => copied(&mut out)?,
            "filled" => filled(&mut out)?,
            _ => none()?,
        }
    }
    kept.flush()
}
