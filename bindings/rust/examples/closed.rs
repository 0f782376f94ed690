//! When is an element of a record file closed? `cargo run --example closed -- FILE ELEMENT VEHICLE YEAR MONTH DAY`
use gtd::{day_of, stamp, Direction, Records};
use std::env;
use std::error::Error;
use std::fs;

fn main() -> Result<(), Box<dyn Error>> {
    let words: Vec<String> = env::args().skip(1).collect();
    let [file, element, vehicle, year, month, day] = match words.as_slice() {
        [file, element, vehicle, year, month, day] => [file, element, vehicle, year, month, day],
        _ => return Err("usage: closed FILE ELEMENT VEHICLE YEAR MONTH DAY".into()),
    };
    let records = Records::new(fs::read(file)?)?;
    let (element, vehicle) = (element.parse()?, vehicle.parse()?);
    let day = day_of(year.parse()?, month.parse()?, day.parse()?)?;
    for direction in [Direction::Positive, Direction::Negative] {
        println!("{element} {direction:?}:");
        for span in records.spans(element, direction, vehicle, day, day + 1)? {
            println!("  open from {} until {}", stamp(span.start)?, stamp(span.end)?);
        }
        let rows = records.closers(element, direction, vehicle, day * 86_400 + 12 * 3_600)?;
        println!("  rows that close it at noon: {rows:?}");
    }
    Ok(())
}
