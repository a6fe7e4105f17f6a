// The package for Rust, function by function, where the hosts of tests/languages.sh do not reach: each on something that is taken and on
// something that is refused. As tests/bindings.py for Python.
use aoc::raw::*;
use aoc::{Board, Call, Component, Month, Price, Service};
use std::fmt::Debug;
use std::sync::atomic::{AtomicUsize, Ordering};

static CHECKS: AtomicUsize = AtomicUsize::new(0);

#[track_caller]
fn same<T: PartialEq + Debug>(found: T, wanted: T) {
    CHECKS.fetch_add(1, Ordering::Relaxed);
    assert_eq!(found, wanted);
}

#[track_caller]
fn refused<T: Debug>(number: u32, answer: Result<T, aoc::Refused>) -> u32 {
    CHECKS.fetch_add(1, Ordering::Relaxed);
    let refusal = answer.expect_err("not refused");
    assert_eq!(refusal.number, number);
    refusal.offset
}

fn octets(text: &str) -> Vec<u8> {
    text.split_whitespace().map(|octet| u8::from_str_radix(octet, 16).expect("hex")).collect()
}

fn line(component: Component) -> aoc::Record {
    match component {
        Component::Line(record) => record,
        Component::Trunk(_) => panic!("a trunk's"),
    }
}

fn main() {
    let last = octets("A1 1A 02 01 0B 02 01 23 30 12 30 10 A1 0E 81 03 45 55 52 A2 07 81 02 00 96 82 01 01");
    let units = octets("A1 14 02 01 04 02 01 24 30 0C 30 0A A1 08 30 06 02 01 64 02 01 05");
    let rates = octets("A1 1C 02 01 05 02 01 1F 30 14 30 12 0A 01 00 A2 0D 81 03 45 55 52 A2 06 81 01 0C 82 01 01");
    let trunk = octets("1C 15 9F AA 06 80 01 00 82 01 00 A1 0A 02 01 01 02 01 3D 30 02 81 00");
    let unknown = octets("A1 06 02 01 05 02 01 63");

    // ---- components
    same(aoc::version() > 30000, true);
    let record = aoc::read(&last).expect("a component");
    same((u32::from(record.operation), record.id), (AOC_OPERATION_E_CURRENCY, 11));
    same((record.charge.to_string(), record.charge.money.to_string(), record.charge.money.currency.to_string()), ("EUR 1.500".into(), "EUR 1.500".into(), "EUR".into()));
    same(record.charge.money.thousandths(), 1500);
    same(aoc::write(&record), Ok(last.clone()));
    same(line(aoc::read_by(AOC_PROFILE_LINE as u8, &last).expect("a component")), record);
    same(aoc::write_by(AOC_PROFILE_LINE as u8, &Component::Line(record)), Ok(last.clone()));
    let charge = aoc::read(&units).expect("units").charge;
    same(charge.units().iter().map(|unit| (unit.known, unit.number, unit.r#type)).collect::<Vec<_>>(), vec![(1, 100, 5)]);
    same((charge.rates().len(), record.charge.units().len()), (0, 0));
    let flat = aoc::read(&rates).expect("rates").charge.rates();
    same(flat.iter().map(|rate| (u32::from(rate.kind), rate.money.to_string())).collect::<Vec<_>>(), vec![(AOC_RATE_FLAT, "EUR 0.120".into())]);
    same(refused(AOC_REFUSED_UNKNOWN_OPERATION, aoc::read(&unknown)), 0);
    same(refused(AOC_REFUSED_MISSING, aoc::read(&octets("A1 08 02 01 05 02 01 23 30 00"))), 10);
    refused(AOC_REFUSED_OTHER_PROFILE, aoc::read_by(0x90, &last));
    refused(AOC_REFUSED_BAD_RECORD, aoc::write(&aoc::Record { frame: 9, ..record }));
    same(aoc::reply(&unknown), Ok(octets("A4 06 02 01 05 81 01 01")));
    same(aoc::reply(&last), Ok(vec![]));
    same(aoc::reply_by(AOC_PROFILE_TRUNK as u8, &last).expect("a reject")[0], 0xA4);
    refused(AOC_REFUSED_OTHER_PROFILE, aoc::reply_by(0x90, &last));
    same(aoc::request(Service::E, 3), Ok(octets("A1 09 02 01 03 02 01 1E 0A 01 02")));
    let element = aoc::element(&[&last[..], &unknown].concat()).expect("an element");
    let held: Vec<_> = aoc::components(&element).map(|held| held.expect("an element")).collect();
    same(held.iter().map(|one| one.octets.to_vec()).collect::<Vec<_>>(), vec![last.clone(), unknown.clone()]);
    same(held[0].component, Ok(Component::Line(record)));
    same(refused(AOC_REFUSED_UNKNOWN_OPERATION, held[1].component), 0);
    refused(AOC_REFUSED_BAD_ELEMENT, aoc::element(&[]));
    refused(AOC_REFUSED_OTHER_PROFILE, aoc::element_by(0x90, &last));
    let cut: Vec<_> = aoc::components(&element[..element.len() - 1]).collect();
    same(cut.len(), 1);
    refused(AOC_REFUSED_BAD_ELEMENT, cut[0].clone());
    let held: Vec<_> = aoc::components(&trunk).map(|held| held.expect("an element")).collect();
    same((held.len(), held[1].family), (2, AOC_FAMILY_TRUNK));
    same((held[0].for_exchange, held[1].for_exchange), (true, false));
    same(aoc::element_by(AOC_PROFILE_TRUNK as u8, &[held[0].octets, held[1].octets].concat()), Ok(trunk.clone()));
    same(aoc::trunk_element(AOC_INTERPRETATION_NONE as u8, held[1].octets), Ok(trunk.clone()));
    let discarded = aoc::trunk_element(aoc::interpretation_of(AOC_OPERATION_FINAL as u8), held[1].octets).expect("an element");
    same((aoc::interpretation_in(&discarded), aoc::interpretation_in(&trunk)), (AOC_INTERPRETATION_DISCARD as u8, AOC_INTERPRETATION_NONE as u8));
    let operation = |octets: Result<Vec<u8>, aoc::Refused>| match aoc::read_by(AOC_PROFILE_TRUNK as u8, &octets.expect("written")) {
        Ok(Component::Trunk(trunk)) => u32::from(trunk.operation),
        _ => 0,
    };
    let mut user = aoc::Association { id: 0, count: 3, kind: AOC_ASSOCIATION_NUMBER as u8, plan: 0, digits: [0; 20] };
    user.digits[..3].copy_from_slice(b"214");
    same(operation(aoc::charge_request(5, &[AOC_MODE_FINAL as u8])), AOC_OPERATION_CHARGE_REQUEST);
    same(operation(aoc::final_charge_request(6)), AOC_OPERATION_GET_FINAL_CHARGE);
    same(operation(aoc::complete_request(7, &user)), AOC_OPERATION_COMPLETE);
    same(operation(aoc::diversion_request(8, &user, AOC_DIVERSION_BUSY as u8)), AOC_OPERATION_DIVERSION);
    refused(AOC_REFUSED_BAD_RECORD, aoc::charge_request(5, &[7]));
    same(aoc::write_by(AOC_PROFILE_TRUNK as u8, &held[1].component.expect("a final")), Ok(held[1].octets.to_vec()));

    // ---- a call, and what is stored of it
    let mut account = aoc::Account::default();
    same(account.step(aoc::event(257), &[]).number, AOC_REFUSED_WRONG_PHASE);
    same(account.step(aoc::event_of_setup(&[], aoc::identifiers(0)), &[]).number, 0);
    same(account.phase(), AOC_PHASE_ESTABLISHMENT);
    let mut call = Call::new();
    same((call.connect().to_string(), call.connect().is_refused()), ("an event that is not allowed in this phase".into(), true));
    same(call.setup(&[Service::D, Service::E], aoc::identifiers(0)).number, AOC_OUTCOME_DONE);
    same((call.pending().asked.has(Service::S), call.pending().asked.has(Service::E), call.pending().e), (false, true, 3));
    same((call.phase(), call.rate(), call.running(), call.closing()), (AOC_PHASE_ESTABLISHMENT, None, None, None));
    same([call.connect(), call.suspend(), call.resume(), call.clear()].map(|outcome| outcome.number), [0; 4]);
    let outcomes = call.facility(&element).expect("an element");
    same(outcomes.iter().map(|(_, outcome)| outcome.number).collect::<Vec<_>>(), vec![AOC_OUTCOME_IGNORED, AOC_REFUSED_UNKNOWN_OPERATION]);
    same(call.facility(&trunk).expect("an element").len(), 0);
    same(call.released().number, 0);
    let why = call.why().expect("a list");
    same((why.reason, why.event, why.to_string()), (AOC_REASON_PASSED_OVER, 8, "a figure was ignored or out of phase".into()));
    same(call.fault().map(|fault| fault.rule), Ok(AOC_RULE_KEPT));
    let accepted = call.accepted().expect("a list");
    same((accepted.phase(), accepted.list().0.len() < call.list().0.len()), (AOC_PHASE_ENDED, true));
    let (rows, all) = call.list();
    let again = Call::of_list(rows, all).expect("a list");
    same((again.phase(), again.list(), again.marks()), (call.phase(), call.list(), call.marks()));
    refused(AOC_REFUSED_LENGTHS, Call::of_list(&rows[1..], all));
    let mut kept = Call::new();
    same([kept.setup(&[], aoc::identifiers(0)), kept.connect(), kept.clear()].map(|outcome| outcome.number), [0; 3]);
    same(kept.component(&last).number, AOC_OUTCOME_FINAL);
    same(kept.released().number, 0);
    let fault = kept.fault().expect("a list");
    same((fault.rule, fault.event, fault.to_string()), (AOC_RULE_KEPT, 0, "all rules kept".into()));
    let closing = kept.closing().expect("a figure");
    same(aoc::price(&closing), Ok(Price::Money { currency: record.charge.money.currency, thousandths: 1500.0, quotient: 1.5 }));
    refused(AOC_REFUSED_NO_CLOSING, aoc::price(&aoc::Closing { service: 0, ..closing }));

    // ---- messages, a board, a month
    let (setup, connect) = (octets("08 01 05 05"), octets("08 01 85 07"));
    let traced = Call::of_trace(&[(AOC_FROM_USER, &setup), (AOC_FROM_NETWORK, &connect)]).expect("a trace");
    same(traced.phase(), AOC_PHASE_ACTIVE);
    same(refused(AOC_REFUSED_FRAMING, Call::of_trace(&[(AOC_FROM_USER, &setup), (AOC_FROM_NETWORK, &[8])])), 2);
    let mut live = Call::new();
    let mut taken = live.message(AOC_FROM_USER, &setup).expect("a message");
    taken.extend(live.message(AOC_FROM_NETWORK, &connect).expect("a message"));
    same(taken.iter().map(|one| (u32::from(one.event.kind), one.outcome.number)).collect::<Vec<_>>(), vec![(AOC_EVENT_SETUP, 0), (AOC_EVENT_CONNECT, 0)]);
    same(live.list(), traced.list());
    refused(AOC_REFUSED_FRAMING, live.message(AOC_FROM_NETWORK, &[8]));
    let element = aoc::element(&last).expect("an element");
    let disconnect = [octets("08 01 85 45"), element.clone()].concat();
    same(aoc::facilities(&disconnect).collect::<Vec<_>>(), vec![&element[..]]);
    same((aoc::call_key(AOC_FROM_USER, &setup), aoc::call_key(AOC_FROM_NETWORK, &setup), aoc::call_key(AOC_FROM_USER, &[8])), (Some(5), Some(0x8005), None));
    let mut desk = Board::new();
    let mut outcomes = vec![];
    for (from, message) in [(AOC_FROM_USER, &setup), (AOC_FROM_NETWORK, &connect), (AOC_FROM_NETWORK, &disconnect), (AOC_FROM_USER, &octets("08 01 05 4D")), (AOC_FROM_NETWORK, &octets("08 01 85 5A"))] {
        outcomes.extend(desk.message(from, message).expect("a message").iter().map(|one| one.outcome.number));
    }
    same(outcomes, vec![0, 0, 0, AOC_OUTCOME_FINAL, AOC_REFUSED_WRONG_PHASE, AOC_REFUSED_WRONG_PHASE, 0]);
    same(desk.collect(5).map(|closing| closing.map(|closing| closing.charge.to_string())), Ok(Some("EUR 1.500".into())));
    same(desk.replay(9, &live), Ok(()));
    same(desk.view(9).map(|account| account.phase()), Ok(AOC_PHASE_ACTIVE));
    refused(AOC_REFUSED_IN_USE, desk.replay(9, &live));
    let mut board = Board::new();
    same(board.event(7, aoc::event(AOC_EVENT_CONNECT), &[]).number, AOC_REFUSED_NOT_HELD);
    same(board.event(7, aoc::event_of_setup(&[], aoc::identifiers(0)), &[]).number, 0);
    same(board.event(7, aoc::event(AOC_EVENT_CONNECT), &[]).number, 0);
    same(board.event(7, aoc::event(AOC_EVENT_CLEAR), &[]).number, 0);
    same(board.event(7, aoc::event(AOC_EVENT_COMPONENT), &last).number, AOC_OUTCOME_FINAL);
    refused(AOC_REFUSED_WRONG_PHASE, board.collect(7));
    same(board.event(7, aoc::event(AOC_EVENT_RELEASED), &[]).number, 0);
    same(board.view(7).map(|account| account.phase()), Ok(AOC_PHASE_ENDED));
    same(board.collect(7), Ok(Some(closing)));
    refused(AOC_REFUSED_NOT_HELD, board.view(7));
    let mut month = Month::new();
    same((month.post(&closing), month.post(&closing)), (Ok(()), Ok(())));
    refused(AOC_REFUSED_BAD_RECORD, month.post(&aoc::Closing { service: 0, ..closing }));
    same(month.rows().iter().map(|row| (row.calls, row.sum)).collect::<Vec<_>>(), vec![(2, 3000)]);
    same((month.units(0), month.place(AOC_SERVICE_E, AOC_MONTH_NOT_BILLED)), (0, 2));
    println!("bindings: {} checks of the package for Rust", CHECKS.load(Ordering::Relaxed));
}
