//! `closed_at FILE COUNT`: the questions of `bench/closed_at/main.rattle`, answered from a plain table: a hash map of elements,
//! and for each row a tree of its hours. It reads hours of the day with weekdays alone, such as `[(t2t3h7){h2}]+[(h15m30){h3}]`.
use std::collections::HashMap;

const ELEMENTS: u64 = 65_536;
const FIRST: i64 = 1_767_225_600;
const SECONDS: u64 = 63_072_000;
const VEHICLE: u8 = 11;
const DAY: i64 = 86_400;

/// The hours of a row: what begins on these weekdays (bit 0 is Sunday; none means each) at a second of the day, and how long it
/// lasts, a day at most.
enum Hours {
    Leaf { weekdays: u8, begin: i64, length: i64 },
    Join(u8, Box<Hours>, Box<Hours>),
}

struct Row {
    positive: bool,
    negative: bool,
    vehicle: u8,
    hours: Hours,
}

struct Text<'a> {
    bytes: &'a [u8],
    at: usize,
}

impl Text<'_> {
    fn peek(&self) -> u8 {
        *self.bytes.get(self.at).unwrap_or(&0)
    }

    fn take(&mut self, byte: u8) {
        assert_eq!(self.peek(), byte, "at {} of {:?}", self.at, std::str::from_utf8(self.bytes));
        self.at += 1;
    }

    fn number(&mut self) -> i64 {
        let mut value = 0;
        while self.peek().is_ascii_digit() {
            value = 10 * value + i64::from(self.peek() - b'0');
            self.at += 1;
        }
        value
    }

    fn fields(&mut self, open: u8, close: u8) -> (u8, i64) {
        let (mut weekdays, mut seconds) = (0, 0);
        self.take(open);
        while self.peek() != close {
            let name = self.peek();
            self.at += 1;
            let value = self.number();
            match name {
                b't' => weekdays |= 1 << (value - 1),
                b'd' => seconds += DAY * value,
                b'h' => seconds += 3600 * value,
                b'm' => seconds += 60 * value,
                b's' => seconds += value,
                _ => panic!("not read: {}", char::from(name)),
            }
        }
        self.take(close);
        (weekdays, seconds)
    }

    fn item(&mut self) -> Hours {
        if self.peek() == b'[' {
            self.take(b'[');
            let found = self.hours();
            self.take(b']');
            return found;
        }
        let (weekdays, begin) = self.fields(b'(', b')');
        let (_, length) = self.fields(b'{', b'}');
        assert!(begin < DAY && length <= DAY);
        Hours::Leaf { weekdays, begin, length }
    }

    fn hours(&mut self) -> Hours {
        let mut found = self.item();
        while matches!(self.peek(), b'+' | b'*' | b'-') {
            let sign = self.peek();
            self.at += 1;
            found = Hours::Join(sign, Box::new(found), Box::new(self.item()));
        }
        found
    }
}

/// Whether a stretch that begins on this day holds a second of the day, which may be one of the next.
fn begins(weekdays: u8, day: i64) -> bool {
    weekdays == 0 || weekdays >> (day + 4).rem_euclid(7) & 1 == 1
}

fn holds(hours: &Hours, day: i64, second: i64) -> bool {
    match hours {
        Hours::Leaf { weekdays, begin, length } => {
            (*begin <= second && second < begin + length && begins(*weekdays, day))
                || (second + DAY < begin + length && begins(*weekdays, day - 1))
        }
        Hours::Join(sign, left, right) => match sign {
            b'+' => holds(left, day, second) || holds(right, day, second),
            b'*' => holds(left, day, second) && holds(right, day, second),
            _ => holds(left, day, second) && !holds(right, day, second),
        },
    }
}

fn read(text: &str) -> HashMap<u64, Vec<Row>> {
    let mut table: HashMap<u64, Vec<Row>> = HashMap::new();
    for line in text.lines().skip(1) {
        let fields: Vec<&str> = line.split(',').collect();
        let row = Row {
            positive: fields[1] != "negative",
            negative: fields[1] != "positive",
            vehicle: fields[2].parse().unwrap(),
            hours: Text { bytes: fields[3].as_bytes(), at: 0 }.hours(),
        };
        table.entry(fields[0].parse().unwrap()).or_default().push(row);
    }
    table
}

fn closed_at(table: &HashMap<u64, Vec<Row>>, element: u64, positive: bool, second: i64) -> bool {
    let (day, of_day) = (second.div_euclid(DAY), second.rem_euclid(DAY));
    table.get(&element).is_some_and(|rows| {
        rows.iter().any(|row| {
            (if positive { row.positive } else { row.negative })
                && (row.vehicle == 0 || row.vehicle == VEHICLE)
                && holds(&row.hours, day, of_day)
        })
    })
}

fn next(state: u64) -> u64 {
    state.wrapping_mul(6_364_136_223_846_793_005).wrapping_add(1_442_695_040_888_963_407)
}

fn main() {
    let words: Vec<String> = std::env::args().collect();
    let table = read(&std::fs::read_to_string(&words[1]).unwrap());
    let (mut state, mut found) = (1u64, 0u64);
    for _ in 0..words[2].parse::<u64>().unwrap() {
        let drawn = next(state);
        state = next(drawn);
        let element = (drawn >> 33) % ELEMENTS;
        let second = FIRST + ((state >> 33) % SECONDS) as i64;
        found += u64::from(closed_at(&table, element, (drawn >> 32) % 2 == 0, second));
    }
    println!("{found}");
}
