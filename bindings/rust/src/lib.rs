//! Advice of Charge (ETS 300 182-1) for a host in Rust, over the library libaoc.
//!
//! ```no_run
//! # let octets = [];
//! let mut call = aoc::Call::new();
//! println!("set-up: {}", call.setup(&[], aoc::identifiers(0)));
//! println!("connect: {}", call.connect());
//! println!("clear: {}", call.clear());
//! println!("component: {}", call.component(&octets)); // of the network's DISCONNECT
//! println!("released: {}", call.released());
//! if let Some(closing) = call.closing() {
//!     println!("{}", closing.charge);
//! }
//! ```
//!
//! Numbers and structs are those of aoc.h, which says what each means; [`raw`] has all of them under their own names, and the
//! functions as they are. An event that is refused has an [`Outcome`] that says so, as in C, and has changed nothing; any other
//! refusal is a [`Refused`].
//!
//! No function here can be called wrongly: slices carry their length, what is lent to be written is borrowed alone, and the library
//! gives its one answer for whatever octets, records and accounts it is handed.
use std::ffi::CStr;
use std::fmt;
use std::os::raw::c_char;

pub mod raw;
use raw::*;

pub use raw::{
    aoc_association as Association, aoc_charge as Charge, aoc_closing as Closing, aoc_currency as Currency, aoc_event as Event,
    aoc_identifiers as Identifiers, aoc_marks as Marks, aoc_money as Money, aoc_month_currency as MonthCurrency, aoc_pending as Pending,
    aoc_rate_entry as Rate, aoc_record as Record, aoc_services as Services, aoc_trunk as Trunk, aoc_unit_entry as Unit,
};

/// A library with another layout has another name here, and is not linked.
#[used]
static LAYOUT: unsafe extern "C" fn() -> u32 = aoc_layout;

/// The library's words, which are never null and live as long as the program.
fn words(text: *const c_char) -> &'static str {
    unsafe { CStr::from_ptr(text) }.to_str().expect("the library's words are ASCII")
}

/// A struct of zeros. Each struct of the library is numbers alone, for which zeros are values.
fn zeros<T: Copy>() -> T {
    unsafe { std::mem::zeroed() }
}

/// A refusal: its number, and with 40 to 45 the offset of the octet.
#[derive(Clone, Copy, Debug, PartialEq, Eq)]
pub struct Refused {
    pub number: u32,
    pub offset: u32,
}

impl fmt::Display for Refused {
    fn fmt(&self, f: &mut fmt::Formatter) -> fmt::Result {
        f.write_str(words(unsafe { aoc_refusal_text(self.number) }))
    }
}

impl std::error::Error for Refused {}

fn accept(number: u32, offset: u32) -> Result<(), Refused> {
    if number == AOC_ACCEPTED { Ok(()) } else { Err(Refused { number, offset }) }
}

/// What came of an event.
#[derive(Clone, Copy, Debug, PartialEq, Eq)]
#[must_use]
pub struct Outcome {
    pub number: u32,
    pub service: u32,
}

impl Outcome {
    fn of(outcome: aoc_outcome) -> Outcome {
        Outcome { number: outcome.number.into(), service: outcome.service.into() }
    }

    pub fn is_refused(&self) -> bool {
        unsafe { aoc_is_refusal(self.number) }
    }
}

impl fmt::Display for Outcome {
    fn fmt(&self, f: &mut fmt::Formatter) -> fmt::Result {
        f.write_str(words(unsafe { aoc_outcome_text(self.number) }))
    }
}

#[derive(Clone, Copy, Debug, PartialEq, Eq)]
pub enum Service {
    S = AOC_SERVICE_S as isize,
    D = AOC_SERVICE_D as isize,
    E = AOC_SERVICE_E as isize,
}

/// The library's version: 10000 times the first number, 100 times the second, the third.
pub fn version() -> u32 {
    unsafe { aoc_version() }
}

// ---- components

/// A component of one family or the other.
#[derive(Clone, Copy, Debug, PartialEq)]
#[allow(clippy::large_enum_variant)]
pub enum Component {
    Line(Record),
    Trunk(Trunk),
}

fn component(answer: &aoc_either) -> Result<Component, Refused> {
    accept(answer.refusal, answer.offset)?;
    Ok(if answer.family == AOC_FAMILY_TRUNK { Component::Trunk(answer.trunk) } else { Component::Line(answer.record) })
}

/// The record of a component of a public line.
pub fn read(octets: &[u8]) -> Result<Record, Refused> {
    let mut answer: aoc_answer = zeros();
    unsafe { aoc_read(octets.as_ptr(), octets.len(), &mut answer) };
    accept(answer.refusal, answer.offset)?;
    Ok(answer.record)
}

/// The record of a component, by the profile octet of its element.
pub fn read_by(profile: u8, octets: &[u8]) -> Result<Component, Refused> {
    let mut answer: aoc_either = zeros();
    unsafe { aoc_read_by(profile, octets.as_ptr(), octets.len(), &mut answer) };
    component(&answer)
}

fn written(room: u32, write: impl FnOnce(*mut u8, usize) -> aoc_written) -> Result<Vec<u8>, Refused> {
    let mut buffer = vec![0; room as usize];
    let answer = write(buffer.as_mut_ptr(), buffer.len());
    accept(answer.refusal, 0)?;
    buffer.truncate(answer.count as usize);
    Ok(buffer)
}

/// A record's shortest form.
pub fn write(record: &Record) -> Result<Vec<u8>, Refused> {
    written(AOC_LIMIT_COMPONENT_OCTETS, |buffer, room| unsafe { aoc_write(record, buffer, room) })
}

/// The same, of the record of the family that the profile octet names.
pub fn write_by(profile: u8, component: &Component) -> Result<Vec<u8>, Refused> {
    let mut either: aoc_either = zeros();
    match component {
        Component::Line(record) => either.record = *record,
        Component::Trunk(trunk) => either.trunk = *trunk,
    }
    written(AOC_LIMIT_COMPONENT_OCTETS, |buffer, room| unsafe { aoc_write_by(profile, &either, buffer, room) })
}

/// The reject to send for a component; no octets where none is due.
pub fn reply(octets: &[u8]) -> Result<Vec<u8>, Refused> {
    written(AOC_LIMIT_REPLY_OCTETS, |buffer, room| unsafe { aoc_reply(octets.as_ptr(), octets.len(), buffer, room) })
}

pub fn reply_by(profile: u8, octets: &[u8]) -> Result<Vec<u8>, Refused> {
    written(AOC_LIMIT_REPLY_OCTETS, |buffer, room| unsafe { aoc_reply_by(profile, octets.as_ptr(), octets.len(), buffer, room) })
}

/// The request for a service.
pub fn request(service: Service, id: u16) -> Result<Vec<u8>, Refused> {
    written(AOC_LIMIT_COMPONENT_OCTETS, |buffer, room| unsafe { aoc_request(service as u8, id, buffer, room) })
}

/// The Facility element that holds components of a public line, which are laid end to end.
pub fn element(octets: &[u8]) -> Result<Vec<u8>, Refused> {
    written(AOC_LIMIT_ELEMENT_OCTETS, |buffer, room| unsafe { aoc_write_element(octets.as_ptr(), octets.len(), buffer, room) })
}

/// The same with a profile octet, AOC_PROFILE_LINE or AOC_PROFILE_TRUNK.
pub fn element_by(profile: u8, octets: &[u8]) -> Result<Vec<u8>, Refused> {
    written(AOC_LIMIT_ELEMENT_OCTETS, |buffer, room| unsafe { aoc_write_element_by(profile, octets.as_ptr(), octets.len(), buffer, room) })
}

/// A trunk's Facility element, with the network facility extension and the interpretation (AOC_INTERPRETATION_NONE for none) in front.
pub fn trunk_element(interpretation: u8, octets: &[u8]) -> Result<Vec<u8>, Refused> {
    written(AOC_LIMIT_ELEMENT_OCTETS, |buffer, room| unsafe {
        aoc_write_trunk_element(interpretation, octets.as_ptr(), octets.len(), buffer, room)
    })
}

/// A trunk's chargeRequest: AOC_MODE_FINAL and its like.
pub fn charge_request(id: u16, modes: &[u8]) -> Result<Vec<u8>, Refused> {
    written(AOC_LIMIT_COMPONENT_OCTETS, |buffer, room| unsafe { aoc_charge_request(id, modes.as_ptr(), modes.len(), buffer, room) })
}

pub fn final_charge_request(id: u16) -> Result<Vec<u8>, Refused> {
    written(AOC_LIMIT_COMPONENT_OCTETS, |buffer, room| unsafe { aoc_final_charge_request(id, buffer, room) })
}

pub fn complete_request(id: u16, user: &Association) -> Result<Vec<u8>, Refused> {
    written(AOC_LIMIT_COMPONENT_OCTETS, |buffer, room| unsafe { aoc_complete_request(id, user, buffer, room) })
}

pub fn diversion_request(id: u16, user: &Association, diversion: u8) -> Result<Vec<u8>, Refused> {
    written(AOC_LIMIT_COMPONENT_OCTETS, |buffer, room| unsafe { aoc_diversion_request(id, user, diversion, buffer, room) })
}

/// The interpretation that ECMA-212 wants in front of an operation.
pub fn interpretation_of(operation: u8) -> u8 {
    unsafe { aoc_interpretation_of(operation) }
}

/// What the sender of a trunk's Facility element wants done with an invoke that nobody knows.
pub fn interpretation_in(octets: &[u8]) -> u8 {
    unsafe { aoc_interpretation_in(octets.as_ptr(), octets.len()) }
}

/// A component of an element: its octets, its family (AOC_FAMILY_LINE, AOC_FAMILY_TRUNK), and what they mean, or the refusal; and
/// whether it is for the exchange, which a client passes over and sends no reject for.
#[derive(Clone, Debug)]
pub struct Held<'a> {
    pub octets: &'a [u8],
    pub family: u32,
    pub component: Result<Component, Refused>,
    pub for_exchange: bool,
}

/// Goes through the components of a Facility element.
pub struct Components<'a> {
    octets: &'a [u8],
    place: usize,
    over: bool,
}

/// The components of a Facility element of either family, from its first octet, 1C. A malformed element is one refusal.
pub fn components(octets: &[u8]) -> Components<'_> {
    Components { octets, place: AOC_FIRST_PLACE as usize, over: false }
}

impl<'a> Iterator for Components<'a> {
    type Item = Result<Held<'a>, Refused>;

    fn next(&mut self) -> Option<Self::Item> {
        if self.over {
            return None;
        }
        let (from, mut answer) = (self.place, zeros::<aoc_either>());
        if unsafe { aoc_next_by(self.octets.as_ptr(), self.octets.len(), &mut self.place, &mut answer) } {
            let octets = &self.octets[from..self.place];
            let for_exchange = unsafe { aoc_is_for_exchange(&answer, octets.as_ptr(), octets.len()) };
            return Some(Ok(Held { octets, family: answer.family, component: component(&answer), for_exchange }));
        }
        self.over = true;
        accept(answer.refusal, answer.offset).err().map(Err)
    }
}

// ---- messages

/// The octets of each Facility element of a layer 3 message.
pub fn facilities(octets: &[u8]) -> impl Iterator<Item = &[u8]> {
    let mut place = 0;
    std::iter::from_fn(move || {
        let mut from = 0;
        unsafe { aoc_next_facility(octets.as_ptr(), octets.len(), &mut place, &mut from) }.then(|| &octets[from..place])
    })
}

/// The key of a message's call for a [`Board`]; none for a message of no call.
pub fn call_key(direction: u32, octets: &[u8]) -> Option<u16> {
    let mut key = 0;
    unsafe { aoc_call_key(direction, octets.as_ptr(), octets.len(), &mut key) }.then_some(key)
}

/// Rows and octets of the event list that a function lays in lent memory of so many numbers and octets.
fn list(numbers: usize, room: usize, lay: impl FnOnce(*mut u16, usize, *mut u8, usize) -> aoc_trace_answer) -> Result<(Vec<u16>, Vec<u8>), Refused> {
    let (mut rows, mut out) = (vec![0u16; numbers], vec![0u8; room]);
    let found = lay(rows.as_mut_ptr(), rows.len(), out.as_mut_ptr(), out.len());
    accept(found.refusal as u32, found.message as u32)?;
    rows.truncate(ROW * found.events as usize);
    out.truncate(found.octets as usize);
    Ok((rows, out))
}

const ROW: usize = AOC_ROW_NUMBERS as usize;

/// The events of one message as it goes out or comes in, in their order, each with its octets.
pub fn message_events(direction: u32, octets: &[u8]) -> Result<Vec<(Event, Vec<u8>)>, Refused> {
    let (rows, out) = list(ROW * octets.len(), octets.len(), |rows, row_room, out, out_room| unsafe {
        aoc_message_events(direction, octets.as_ptr(), octets.len(), rows, row_room, out, out_room)
    })?;
    let mut rest = &out[..];
    Ok(rows
        .chunks_exact(ROW)
        .map(|row| {
            let (own, after) = rest.split_at(usize::from(row[ROW - 1]));
            rest = after;
            (unsafe { aoc_event_at(row.as_ptr()) }, own.to_vec())
        })
        .collect())
}

/// An event of a message, its octets, and what came of it.
#[derive(Clone, Debug, PartialEq)]
pub struct Taken {
    pub event: Event,
    pub octets: Vec<u8>,
    pub outcome: Outcome,
}

// ---- values

fn printed(f: &mut fmt::Formatter, print: impl Fn(*mut c_char, usize) -> usize) -> fmt::Result {
    let mut text = vec![0u8; print(std::ptr::null_mut(), 0) + 1];
    print(text.as_mut_ptr().cast(), text.len());
    text.pop();
    f.write_str(&String::from_utf8_lossy(&text))
}

impl fmt::Display for Charge {
    fn fmt(&self, f: &mut fmt::Formatter) -> fmt::Result {
        printed(f, |buffer, room| unsafe { aoc_print_charge(buffer, room, self) })
    }
}

impl fmt::Display for Money {
    fn fmt(&self, f: &mut fmt::Formatter) -> fmt::Result {
        printed(f, |buffer, room| unsafe { aoc_print_money(buffer, room, self) })
    }
}

impl fmt::Display for Currency {
    fn fmt(&self, f: &mut fmt::Formatter) -> fmt::Result {
        printed(f, |buffer, room| unsafe { aoc_print_currency(buffer, room, self) })
    }
}

impl Money {
    /// The amount in thousandths, exact.
    pub fn thousandths(&self) -> u64 {
        unsafe { aoc_thousandths(self.number, self.multiplier) }
    }
}

impl Charge {
    /// The entries of a charge in units; none of another charge.
    pub fn units(&self) -> Vec<Unit> {
        let count = if u32::from(self.kind) == AOC_CHARGE_UNITS { usize::from(self.count) } else { 0 };
        (0..count).map(|i| unsafe { aoc_unit_at(self, i) }).collect()
    }

    /// The entries of a list of rates; none of another charge.
    pub fn rates(&self) -> Vec<Rate> {
        let count = if u32::from(self.kind) == AOC_CHARGE_RATES { usize::from(self.count) } else { 0 };
        (0..count).map(|i| unsafe { aoc_rate_at(self, i) }).collect()
    }
}

/// A set of services.
pub fn services(asked: &[Service]) -> Services {
    asked.iter().fold(unsafe { aoc_no_services() }, |set, service| unsafe { aoc_with_service(set, *service as u8) })
}

impl Services {
    pub fn has(self, service: Service) -> bool {
        unsafe { aoc_has_service(self, service as u8) }
    }
}

/// The three identifiers after this one.
pub fn identifiers(last: u16) -> Identifiers {
    unsafe { aoc_three_identifiers(last) }
}

/// The event of a kind, AOC_EVENT_CONNECT and its like, with nothing beside it. A number that is none gives an event that is refused.
pub fn event(kind: u32) -> Event {
    unsafe { aoc_event_of(u8::try_from(kind).unwrap_or(0)) }
}

pub fn event_of_setup(asked: &[Service], ids: Identifiers) -> Event {
    unsafe { aoc_event_of_setup(services(asked), ids) }
}

/// A closing figure as doubles.
#[derive(Clone, Copy, Debug, PartialEq)]
pub enum Price {
    Free,
    Money { currency: Currency, thousandths: f64, quotient: f64 },
}

pub fn price(closing: &Closing) -> Result<Price, Refused> {
    let found = unsafe { aoc_price(*closing) };
    accept(found.refusal, 0)?;
    Ok(if found.is_free != 0 {
        Price::Free
    } else {
        Price::Money { currency: found.currency, thousandths: found.thousandths, quotient: found.quotient }
    })
}

// ---- one call

/// One call's account.
#[derive(Clone, Copy, Debug)]
pub struct Account(aoc_account);

impl Default for Account {
    fn default() -> Account {
        Account(unsafe { aoc_fresh() })
    }
}

impl Account {
    /// Takes an event; the octets are those of a component.
    pub fn step(&mut self, event: Event, octets: &[u8]) -> Outcome {
        Outcome::of(unsafe { aoc_step(&mut self.0, event, octets.as_ptr(), octets.len()) })
    }

    /// AOC_PHASE_IDLE and its like.
    pub fn phase(&self) -> u32 {
        unsafe { aoc_phase_of(&self.0) }.into()
    }

    pub fn rate(&self) -> Option<Charge> {
        Some(unsafe { aoc_rate_of(&self.0) }).filter(|charge| u32::from(charge.kind) != AOC_CHARGE_NONE)
    }

    pub fn running(&self) -> Option<Charge> {
        Some(unsafe { aoc_running_of(&self.0) }).filter(|charge| u32::from(charge.kind) != AOC_CHARGE_NONE)
    }

    /// The figure to post.
    pub fn closing(&self) -> Option<Closing> {
        Some(unsafe { aoc_closing_of(&self.0) }).filter(|closing| closing.service != AOC_SERVICE_NONE)
    }

    pub fn marks(&self) -> Marks {
        unsafe { aoc_marks_of(&self.0) }
    }

    pub fn pending(&self) -> Pending {
        unsafe { aoc_pending_of(&self.0) }
    }
}

/// Why a call has no price.
#[derive(Clone, Copy, Debug, PartialEq, Eq)]
pub struct Why {
    pub reason: u32,
    pub event: u64,
}

impl fmt::Display for Why {
    fn fmt(&self, f: &mut fmt::Formatter) -> fmt::Result {
        f.write_str(words(unsafe { aoc_reason_text(self.reason) }))
    }
}

/// Whether the exchange kept the rules: AOC_RULE_KEPT, or the rule that an event broke.
#[derive(Clone, Copy, Debug, PartialEq, Eq)]
pub struct Fault {
    pub rule: u32,
    pub event: u64,
}

impl fmt::Display for Fault {
    fn fmt(&self, f: &mut fmt::Formatter) -> fmt::Result {
        f.write_str(words(unsafe { aoc_rule_text(self.rule) }))
    }
}

/// One call: its account, and the list of its events, which is what is stored over a restart.
#[derive(Clone, Debug, Default)]
pub struct Call {
    account: Account,
    rows: Vec<u16>,
    octets: Vec<u8>,
}

impl std::ops::Deref for Call {
    type Target = Account;

    fn deref(&self) -> &Account {
        &self.account
    }
}

impl Call {
    pub fn new() -> Call {
        Call::default()
    }

    /// The call that a stored list tells of.
    pub fn of_list(rows: &[u16], octets: &[u8]) -> Result<Call, Refused> {
        let mut call = Call { rows: rows.to_vec(), octets: octets.to_vec(), ..Call::default() };
        let refusal = unsafe { aoc_replay(rows.as_ptr(), rows.len(), octets.as_ptr(), octets.len(), &mut call.account.0) };
        accept(refusal, 0)?;
        Ok(call)
    }

    /// The call of a trace: AOC_FROM_USER or AOC_FROM_NETWORK, and the octets, of each layer 3 message. The offset of a refusal is the
    /// message that is not framed, from 1.
    pub fn of_trace(messages: &[(u32, &[u8])]) -> Result<Call, Refused> {
        let pairs: Vec<u32> = messages.iter().flat_map(|(from, octets)| [octets.len() as u32, *from]).collect();
        let all: Vec<u8> = messages.iter().flat_map(|(_, octets)| octets.iter().copied()).collect();
        let (rows, out) = list(ROW * all.len(), all.len(), |rows, row_room, out, out_room| unsafe {
            aoc_trace_events(pairs.as_ptr(), pairs.len(), all.as_ptr(), all.len(), rows, row_room, out, out_room)
        })?;
        Call::of_list(&rows, &out)
    }

    /// The list: six numbers for each event, and the octets of all of them end to end.
    pub fn list(&self) -> (&[u16], &[u8]) {
        (&self.rows, &self.octets)
    }

    /// Takes any event; the octets are those of a component.
    pub fn take(&mut self, event: Event, octets: &[u8]) -> Outcome {
        let mut row = [0u16; ROW];
        let outcome = unsafe { aoc_take(&mut self.account.0, event, octets.as_ptr(), octets.len(), row.as_mut_ptr()) };
        self.rows.extend(row);
        self.octets.extend_from_slice(&octets[..usize::from(row[5])]);
        Outcome::of(outcome)
    }

    pub fn setup(&mut self, asked: &[Service], ids: Identifiers) -> Outcome {
        self.take(event_of_setup(asked, ids), &[])
    }

    pub fn connect(&mut self) -> Outcome {
        self.take(event(AOC_EVENT_CONNECT), &[])
    }

    pub fn clear(&mut self) -> Outcome {
        self.take(event(AOC_EVENT_CLEAR), &[])
    }

    pub fn released(&mut self) -> Outcome {
        self.take(event(AOC_EVENT_RELEASED), &[])
    }

    pub fn suspend(&mut self) -> Outcome {
        self.take(event(AOC_EVENT_SUSPEND), &[])
    }

    pub fn resume(&mut self) -> Outcome {
        self.take(event(AOC_EVENT_RESUME), &[])
    }

    pub fn component(&mut self, octets: &[u8]) -> Outcome {
        self.take(event(AOC_EVENT_COMPONENT), octets)
    }

    /// The components of a Facility element, each with its outcome; those of a trunk, which no account takes, are passed over.
    pub fn facility<'a>(&mut self, octets: &'a [u8]) -> Result<Vec<(Held<'a>, Outcome)>, Refused> {
        let mut found = vec![];
        for held in components(octets) {
            let held = held?;
            if held.family == AOC_FAMILY_LINE {
                let outcome = self.component(held.octets);
                found.push((held, outcome));
            }
        }
        Ok(found)
    }

    /// The events of one message of the call, each with its outcome. A second clearing message is refused, which changes nothing.
    pub fn message(&mut self, direction: u32, octets: &[u8]) -> Result<Vec<Taken>, Refused> {
        let events = message_events(direction, octets)?;
        Ok(events.into_iter().map(|(event, octets)| Taken { event, outcome: self.take(event, &octets), octets }).collect())
    }

    /// Why the call has no price.
    pub fn why(&self) -> Result<Why, Refused> {
        let found = unsafe { aoc_why(self.rows.as_ptr(), self.rows.len(), self.octets.as_ptr(), self.octets.len()) };
        accept(found.refusal, 0)?;
        Ok(Why { reason: found.reason, event: found.event })
    }

    /// Whether the exchange kept the rules, by the events that were not refused.
    pub fn fault(&self) -> Result<Fault, Refused> {
        let (mut kept, mut out) = (vec![0u16; self.rows.len()], vec![0u8; self.octets.len()]);
        let found = unsafe {
            aoc_fault_of_accepted(
                self.rows.as_ptr(),
                self.rows.len(),
                self.octets.as_ptr(),
                self.octets.len(),
                kept.as_mut_ptr(),
                kept.len(),
                out.as_mut_ptr(),
                out.len(),
            )
        };
        accept(found.refusal, 0)?;
        Ok(Fault { rule: found.rule, event: found.event })
    }

    /// The call of the events that were not refused.
    pub fn accepted(&self) -> Result<Call, Refused> {
        let (rows, out) = list(self.rows.len(), self.octets.len(), |rows, row_room, out, out_room| unsafe {
            aoc_accepted_events(self.rows.as_ptr(), self.rows.len(), self.octets.as_ptr(), self.octets.len(), rows, row_room, out, out_room)
        })?;
        Call::of_list(&rows, &out)
    }
}

// ---- many calls

/// A table of up to 64 calls by their references.
pub struct Board(Box<aoc_board>);

impl Default for Board {
    fn default() -> Board {
        // made of zeros where it is to lie: 95,488 octets would be much for a stack
        let layout = std::alloc::Layout::new::<aoc_board>();
        unsafe {
            let memory = std::alloc::alloc_zeroed(layout).cast::<aoc_board>();
            if memory.is_null() {
                std::alloc::handle_alloc_error(layout);
            }
            Board(Box::from_raw(memory))
        }
    }
}

impl Board {
    pub fn new() -> Board {
        Board::default()
    }

    pub fn event(&mut self, reference: u16, event: Event, octets: &[u8]) -> Outcome {
        Outcome::of(unsafe { aoc_board_event(&mut *self.0, reference, event, octets.as_ptr(), octets.len()) })
    }

    /// The events of one message, each with its outcome, under the key of its call; none for a message of no call.
    pub fn message(&mut self, direction: u32, octets: &[u8]) -> Result<Vec<Taken>, Refused> {
        let Some(key) = call_key(direction, octets) else { return Ok(vec![]) };
        let events = message_events(direction, octets)?;
        Ok(events.into_iter().map(|(event, octets)| Taken { event, outcome: self.event(key, event, &octets), octets }).collect())
    }

    /// Puts the list of a call on the table, under a reference.
    pub fn replay(&mut self, reference: u16, call: &Call) -> Result<(), Refused> {
        let (rows, octets) = call.list();
        accept(unsafe { aoc_board_replay(&mut *self.0, reference, rows.as_ptr(), rows.len(), octets.as_ptr(), octets.len()) }, 0)
    }

    /// The figure that an ended call closed with, if any; its reference is then free.
    pub fn collect(&mut self, reference: u16) -> Result<Option<Closing>, Refused> {
        let found = unsafe { aoc_board_collect(&mut *self.0, reference) };
        accept(found.refusal, 0)?;
        Ok(Some(found.closing).filter(|closing| closing.service != AOC_SERVICE_NONE))
    }

    /// A copy of a call's account.
    pub fn view(&self, reference: u16) -> Result<Account, Refused> {
        let found = unsafe { aoc_board_view(&*self.0, reference) };
        accept(found.refusal, 0)?;
        Ok(Account(found.account))
    }
}

/// A month's totals.
#[derive(Clone, Debug)]
pub struct Month(aoc_month);

impl Default for Month {
    fn default() -> Month {
        Month(unsafe { aoc_month_empty() })
    }
}

impl Month {
    pub fn new() -> Month {
        Month::default()
    }

    pub fn post(&mut self, closing: &Closing) -> Result<(), Refused> {
        accept(unsafe { aoc_month_post(&mut self.0, closing) }, 0)
    }

    pub fn rows(&self) -> Vec<MonthCurrency> {
        (0..unsafe { aoc_month_rows(&self.0) }).map(|i| unsafe { aoc_month_row(&self.0, i) }).collect()
    }

    pub fn units(&self, kind: usize) -> u64 {
        unsafe { aoc_month_units(&self.0, kind) }
    }

    pub fn place(&self, service: u32, billing: u32) -> u32 {
        unsafe { aoc_month_place(&self.0, service, billing) }
    }
}
