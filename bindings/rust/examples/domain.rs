//! What a time domain says, and when it changes next: `cargo run --example domain -- '(t7h5){h10}'`
use gtd::{day_of, second_of, stamp, Domain, DomainError};
use std::env;
use std::error::Error;

fn main() -> Result<(), Box<dyn Error>> {
    let text = env::args().nth(1).unwrap_or_else(|| "[(M4d1){M3}]*[(h10){h4}]".to_owned());
    let domain = match Domain::new(&text) {
        Ok(domain) => domain,
        Err(DomainError::Fault(fault)) => {
            println!("{text}\n{:>1$} {2}", "^", fault.place + 1, fault.kind.name());
            return Ok(());
        }
        Err(other) => return Err(other.into()),
    };
    let moment = second_of(2024, 4, 1, 6, 50, 0)?;
    println!("{}", domain.words()?.trim_end());
    println!("{}: {}", stamp(moment)?, if domain.holds(moment)? { "in" } else { "out" });
    if let Some(change) = domain.next_change(moment, day_of(2025, 1, 1)?)? {
        println!("it changes at {}", stamp(change)?);
    }
    Ok(())
}
