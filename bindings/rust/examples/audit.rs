// A host in Rust: a night's events of some calls, and what each call is to be charged, or why it has no price.
//
//     cargo run --offline --example audit < audit.txt        the events are in examples/ of the repository and of the installed pages
use aoc::raw::{AOC_EVENT_CLEAR, AOC_EVENT_CONNECT, AOC_EVENT_RELEASED, AOC_EVENT_RESUME, AOC_EVENT_SUSPEND};
use aoc::{Call, Outcome, Service};
use std::collections::BTreeMap;
use std::error::Error;
use std::io::BufRead;

fn service(name: &str) -> Result<Service, String> {
    match name {
        "S" => Ok(Service::S),
        "D" => Ok(Service::D),
        "E" => Ok(Service::E),
        _ => Err(format!("no service {name}")),
    }
}

fn kind(event: &str) -> Result<u32, String> {
    match event {
        "connect" => Ok(AOC_EVENT_CONNECT),
        "clear" => Ok(AOC_EVENT_CLEAR),
        "released" => Ok(AOC_EVENT_RELEASED),
        "suspend" => Ok(AOC_EVENT_SUSPEND),
        "resume" => Ok(AOC_EVENT_RESUME),
        _ => Err(format!("no event {event}")),
    }
}

/// Gives a call the event of a line.
fn take(call: &mut Call, event: &str, rest: &[&str], last: &mut u16) -> Result<Vec<Outcome>, Box<dyn Error>> {
    match event {
        "setup" => {
            let asked = rest.iter().map(|name| service(name)).collect::<Result<Vec<_>, _>>()?;
            let ids = aoc::identifiers(*last);
            *last = ids.e;
            Ok(vec![call.setup(&asked, ids)])
        }
        "facility" => {
            let element = rest.iter().map(|octet| u8::from_str_radix(octet, 16)).collect::<Result<Vec<_>, _>>()?;
            Ok(call.facility(&element)?.into_iter().map(|(_, outcome)| outcome).collect())
        }
        _ => Ok(vec![call.take(aoc::event(kind(event)?), &[])]),
    }
}

fn charge(call: &Call) -> Result<String, aoc::Refused> {
    if let Some(closing) = call.closing() {
        return Ok(closing.charge.to_string());
    }
    let why = call.why()?;
    Ok(if why.event == 0 { format!("no price: {why}") } else { format!("no price: {why} (event {})", why.event) })
}

fn main() -> Result<(), Box<dyn Error>> {
    let mut calls: BTreeMap<u32, (String, Call)> = BTreeMap::new();
    let mut last = 0;
    for line in std::io::stdin().lock().lines() {
        let line = line?;
        let found: Vec<&str> = line.split_whitespace().collect();
        let (number, room, event, rest) = match found.as_slice() {
            [number, room, event, rest @ ..] if !number.starts_with('#') => (number, room, event, rest),
            _ => continue,
        };
        let (_, call) = calls.entry(number.parse()?).or_insert_with(|| (room.to_string(), Call::new()));
        match take(call, event, rest, &mut last) {
            Ok(outcomes) => {
                for outcome in outcomes.iter().filter(|outcome| outcome.is_refused()) {
                    eprintln!("{event}: {outcome}");
                }
            }
            Err(error) => eprintln!("{event}: {error}"),
        }
    }
    for (number, (room, call)) in &calls {
        println!("room {room} call {number}: {}", charge(call)?);
    }
    Ok(())
}
