//! The structs, numbers and functions of aoc.h and aoc_text.h under their own names. The headers say what each means.
#![allow(non_camel_case_types)]
use std::os::raw::c_char;

// declared by the headers, as bindings/declare.py writes it
pub const AOC_ACCEPTED: u32 = 0;
pub const AOC_REFUSED_CUT: u32 = 1;
pub const AOC_REFUSED_LENGTH_FORM: u32 = 2;
pub const AOC_REFUSED_TOO_LONG: u32 = 3;
pub const AOC_REFUSED_UNKNOWN_COMPONENT: u32 = 4;
pub const AOC_REFUSED_TRAILING: u32 = 5;
pub const AOC_REFUSED_BAD_FRAME: u32 = 6;
pub const AOC_REFUSED_UNKNOWN_OPERATION: u32 = 7;
pub const AOC_REFUSED_UNKNOWN_ERROR: u32 = 8;
pub const AOC_REFUSED_BAD_RECORD: u32 = 10;
pub const AOC_REFUSED_LONG_RECORD: u32 = 11;
pub const AOC_REFUSED_NO_ROOM: u32 = 12;
pub const AOC_REFUSED_BAD_SETUP: u32 = 13;
pub const AOC_REFUSED_WRONG_PHASE: u32 = 14;
pub const AOC_REFUSED_BAD_ELEMENT: u32 = 15;
pub const AOC_REFUSED_BAD_PLACE: u32 = 16;
pub const AOC_REFUSED_OTHER_PROFILE: u32 = 17;
pub const AOC_REFUSED_IN_LIST: u32 = 34;
pub const AOC_REFUSED_IN_USE: u32 = 35;
pub const AOC_REFUSED_FULL: u32 = 36;
pub const AOC_REFUSED_NOT_HELD: u32 = 37;
pub const AOC_REFUSED_UNIT_LIST: u32 = 38;
pub const AOC_REFUSED_NO_CLOSING: u32 = 39;
pub const AOC_REFUSED_MONTH_FULL: u32 = 46;
pub const AOC_REFUSED_CURRENCIES_FULL: u32 = 47;
pub const AOC_REFUSED_LENGTHS: u32 = 48;
pub const AOC_REFUSED_FRAMING: u32 = 49;
pub const AOC_REFUSED_MISSING: u32 = 40;
pub const AOC_REFUSED_UNEXPECTED: u32 = 41;
pub const AOC_REFUSED_LACKING: u32 = 42;
pub const AOC_REFUSED_NOT_SHORTEST: u32 = 43;
pub const AOC_REFUSED_BAD_CONTENTS: u32 = 44;
pub const AOC_REFUSED_PAST_LIMIT: u32 = 45;
pub const AOC_OUTCOME_DONE: u32 = 0;
pub const AOC_OUTCOME_NEW_RATE: u32 = 20;
pub const AOC_OUTCOME_NEW_RUNNING: u32 = 21;
pub const AOC_OUTCOME_FINAL: u32 = 22;
pub const AOC_OUTCOME_NOT_AVAILABLE: u32 = 23;
pub const AOC_OUTCOME_GRANTED: u32 = 24;
pub const AOC_OUTCOME_FAILED: u32 = 25;
pub const AOC_OUTCOME_IGNORED: u32 = 26;
pub const AOC_OUTCOME_OUT_OF_PHASE: u32 = 27;
pub const AOC_OUTCOME_REPEATED: u32 = 28;
pub const AOC_OUTCOME_CONFLICT: u32 = 29;
pub const AOC_OUTCOME_NO_REQUEST: u32 = 30;
pub const AOC_OUTCOME_MISFIT: u32 = 31;
pub const AOC_OUTCOME_NOT_OURS: u32 = 32;
pub const AOC_PHASE_IDLE: u32 = 0;
pub const AOC_PHASE_ESTABLISHMENT: u32 = 1;
pub const AOC_PHASE_ACTIVE: u32 = 2;
pub const AOC_PHASE_CLEARING: u32 = 3;
pub const AOC_PHASE_ENDED: u32 = 4;
pub const AOC_PHASE_SUSPENDED: u32 = 5;
pub const AOC_EVENT_SETUP: u32 = 1;
pub const AOC_EVENT_CONNECT: u32 = 2;
pub const AOC_EVENT_CLEAR: u32 = 3;
pub const AOC_EVENT_RELEASED: u32 = 4;
pub const AOC_EVENT_COMPONENT: u32 = 5;
pub const AOC_EVENT_SUSPEND: u32 = 6;
pub const AOC_EVENT_RESUME: u32 = 7;
pub const AOC_SERVICE_NONE: u32 = 0;
pub const AOC_SERVICE_S: u32 = 1;
pub const AOC_SERVICE_D: u32 = 2;
pub const AOC_SERVICE_E: u32 = 3;
pub const AOC_FAMILY_NONE: u32 = 0;
pub const AOC_FAMILY_LINE: u32 = 1;
pub const AOC_FAMILY_TRUNK: u32 = 2;
pub const AOC_PROFILE_LINE: u32 = 145;
pub const AOC_PROFILE_TRUNK: u32 = 159;
pub const AOC_FRAME_INVOKE: u32 = 1;
pub const AOC_FRAME_RESULT: u32 = 2;
pub const AOC_FRAME_ERROR: u32 = 3;
pub const AOC_FRAME_REJECT: u32 = 4;
pub const AOC_FRAME_EXTENSION: u32 = 10;
pub const AOC_OPERATION_CHARGING_REQUEST: u32 = 30;
pub const AOC_OPERATION_S_CURRENCY: u32 = 31;
pub const AOC_OPERATION_S_SPECIAL: u32 = 32;
pub const AOC_OPERATION_D_CURRENCY: u32 = 33;
pub const AOC_OPERATION_D_UNITS: u32 = 34;
pub const AOC_OPERATION_E_CURRENCY: u32 = 35;
pub const AOC_OPERATION_E_UNITS: u32 = 36;
pub const AOC_OPERATION_CHARGE_REQUEST: u32 = 59;
pub const AOC_OPERATION_GET_FINAL_CHARGE: u32 = 60;
pub const AOC_OPERATION_FINAL: u32 = 61;
pub const AOC_OPERATION_INTERIM: u32 = 62;
pub const AOC_OPERATION_RATE: u32 = 63;
pub const AOC_OPERATION_COMPLETE: u32 = 64;
pub const AOC_OPERATION_DIVERSION: u32 = 65;
pub const AOC_CHARGING_CASE_S: u32 = 0;
pub const AOC_CHARGING_CASE_D: u32 = 1;
pub const AOC_CHARGING_CASE_E: u32 = 2;
pub const AOC_ERROR_NOT_SUBSCRIBED: u32 = 0;
pub const AOC_ERROR_NOT_AVAILABLE: u32 = 3;
pub const AOC_ERROR_NOT_IMPLEMENTED: u32 = 4;
pub const AOC_ERROR_INVALID_CALL_STATE: u32 = 7;
pub const AOC_ERROR_INTERACTION: u32 = 10;
pub const AOC_ERROR_NO_CHARGING_INFO: u32 = 26;
pub const AOC_ERROR_UNSPECIFIED: u32 = 1008;
pub const AOC_ERROR_FREE: u32 = 1016;
pub const AOC_PROBLEM_GENERAL: u32 = 128;
pub const AOC_PROBLEM_INVOKE: u32 = 129;
pub const AOC_PROBLEM_RESULT: u32 = 130;
pub const AOC_PROBLEM_ERROR: u32 = 131;
pub const AOC_GENERAL_PROBLEM_UNRECOGNIZED_COMPONENT: u32 = 0;
pub const AOC_GENERAL_PROBLEM_MISTYPED_COMPONENT: u32 = 1;
pub const AOC_GENERAL_PROBLEM_BADLY_STRUCTURED: u32 = 2;
pub const AOC_INVOKE_PROBLEM_DUPLICATE: u32 = 0;
pub const AOC_INVOKE_PROBLEM_UNRECOGNIZED_OPERATION: u32 = 1;
pub const AOC_INVOKE_PROBLEM_MISTYPED_ARGUMENT: u32 = 2;
pub const AOC_INVOKE_PROBLEM_RESOURCE_LIMITATION: u32 = 3;
pub const AOC_INVOKE_PROBLEM_INITIATOR_RELEASING: u32 = 4;
pub const AOC_INVOKE_PROBLEM_UNRECOGNIZED_LINKED_ID: u32 = 5;
pub const AOC_INVOKE_PROBLEM_LINKED_RESPONSE_UNEXPECTED: u32 = 6;
pub const AOC_INVOKE_PROBLEM_UNEXPECTED_CHILD: u32 = 7;
pub const AOC_RESULT_PROBLEM_UNRECOGNIZED_INVOCATION: u32 = 0;
pub const AOC_RESULT_PROBLEM_RESPONSE_UNEXPECTED: u32 = 1;
pub const AOC_RESULT_PROBLEM_MISTYPED: u32 = 2;
pub const AOC_ERROR_PROBLEM_UNRECOGNIZED_INVOCATION: u32 = 0;
pub const AOC_ERROR_PROBLEM_RESPONSE_UNEXPECTED: u32 = 1;
pub const AOC_ERROR_PROBLEM_UNRECOGNIZED_ERROR: u32 = 2;
pub const AOC_ERROR_PROBLEM_UNEXPECTED_ERROR: u32 = 3;
pub const AOC_ERROR_PROBLEM_MISTYPED_PARAMETER: u32 = 4;
pub const AOC_CHARGE_NONE: u32 = 0;
pub const AOC_CHARGE_FREE: u32 = 1;
pub const AOC_CHARGE_MONEY: u32 = 2;
pub const AOC_CHARGE_UNITS: u32 = 3;
pub const AOC_CHARGE_RATES: u32 = 4;
pub const AOC_CHARGE_ARRANGEMENT: u32 = 5;
pub const AOC_TOTAL_NO: u32 = 0;
pub const AOC_TOTAL_YES: u32 = 1;
pub const AOC_BILLING_NORMAL: u32 = 0;
pub const AOC_BILLING_REVERSE: u32 = 1;
pub const AOC_BILLING_CREDIT_CARD: u32 = 2;
pub const AOC_BILLING_FORWARDING_UNCONDITIONAL: u32 = 3;
pub const AOC_BILLING_FORWARDING_BUSY: u32 = 4;
pub const AOC_BILLING_FORWARDING_NO_REPLY: u32 = 5;
pub const AOC_BILLING_DEFLECTION: u32 = 6;
pub const AOC_BILLING_TRANSFER: u32 = 7;
pub const AOC_MULTIPLIER_THOUSANDTH: u32 = 0;
pub const AOC_MULTIPLIER_HUNDREDTH: u32 = 1;
pub const AOC_MULTIPLIER_TENTH: u32 = 2;
pub const AOC_MULTIPLIER_ONE: u32 = 3;
pub const AOC_MULTIPLIER_TEN: u32 = 4;
pub const AOC_MULTIPLIER_HUNDRED: u32 = 5;
pub const AOC_MULTIPLIER_THOUSAND: u32 = 6;
pub const AOC_SCALE_HUNDREDTH_SECOND: u32 = 0;
pub const AOC_SCALE_TENTH_SECOND: u32 = 1;
pub const AOC_SCALE_SECOND: u32 = 2;
pub const AOC_SCALE_TEN_SECONDS: u32 = 3;
pub const AOC_SCALE_MINUTE: u32 = 4;
pub const AOC_SCALE_HOUR: u32 = 5;
pub const AOC_SCALE_DAY: u32 = 6;
pub const AOC_ITEM_COMMUNICATION: u32 = 0;
pub const AOC_ITEM_ATTEMPT: u32 = 1;
pub const AOC_ITEM_SETUP: u32 = 2;
pub const AOC_ITEM_USER_TO_USER: u32 = 3;
pub const AOC_ITEM_SUPPLEMENTARY: u32 = 4;
pub const AOC_RATE_DURATION: u32 = 1;
pub const AOC_RATE_FLAT: u32 = 2;
pub const AOC_RATE_VOLUME: u32 = 3;
pub const AOC_RATE_CODE: u32 = 4;
pub const AOC_RATE_FREE: u32 = 5;
pub const AOC_RATE_UNKNOWN: u32 = 6;
pub const AOC_RATE_FREE_FROM_BEGINNING: u32 = 7;
pub const AOC_DURATION_CONTINUOUS: u32 = 0;
pub const AOC_DURATION_STEPS: u32 = 1;
pub const AOC_VOLUME_OCTET: u32 = 0;
pub const AOC_VOLUME_SEGMENT: u32 = 1;
pub const AOC_VOLUME_MESSAGE: u32 = 2;
pub const AOC_ASSOCIATION_NONE: u32 = 0;
pub const AOC_ASSOCIATION_IDENTIFIER: u32 = 1;
pub const AOC_ASSOCIATION_NUMBER: u32 = 2;
pub const AOC_ASSOCIATION_PLANNED_NUMBER: u32 = 3;
pub const AOC_ASSOCIATION_PRIVATE_NUMBER: u32 = 4;
pub const AOC_PLAN_UNKNOWN: u32 = 0;
pub const AOC_PLAN_INTERNATIONAL: u32 = 1;
pub const AOC_PLAN_NATIONAL: u32 = 2;
pub const AOC_PLAN_NETWORK_SPECIFIC: u32 = 3;
pub const AOC_PLAN_SUBSCRIBER: u32 = 4;
pub const AOC_PLAN_ABBREVIATED: u32 = 6;
pub const AOC_MODE_RATE: u32 = 0;
pub const AOC_MODE_RATE_INTERIM: u32 = 1;
pub const AOC_MODE_RATE_FINAL: u32 = 2;
pub const AOC_MODE_INTERIM: u32 = 3;
pub const AOC_MODE_FINAL: u32 = 4;
pub const AOC_MODE_INTERIM_FINAL: u32 = 5;
pub const AOC_MODE_RATE_INTERIM_FINAL: u32 = 6;
pub const AOC_OPTION_FREE: u32 = 0;
pub const AOC_OPTION_CONTINUE: u32 = 1;
pub const AOC_OPTION_STOP: u32 = 2;
pub const AOC_DIVERSION_UNCONDITIONAL: u32 = 0;
pub const AOC_DIVERSION_BUSY: u32 = 1;
pub const AOC_DIVERSION_NO_REPLY: u32 = 2;
pub const AOC_DIVERSION_DEFLECTION: u32 = 3;
pub const AOC_ENTITY_END: u32 = 0;
pub const AOC_ENTITY_ANY: u32 = 1;
pub const AOC_EXTENDED_NOT: u32 = 0;
pub const AOC_EXTENDED_ONCE: u32 = 1;
pub const AOC_EXTENDED_LIST: u32 = 2;
pub const AOC_FIRST_EXTENSION: u32 = 170;
pub const AOC_FIRST_INTERPRETATION: u32 = 139;
pub const AOC_FIRST_PROTOCOL_PROFILE: u32 = 146;
pub const AOC_INTERPRETATION_DISCARD: u32 = 0;
pub const AOC_INTERPRETATION_CLEAR: u32 = 1;
pub const AOC_INTERPRETATION_REJECT: u32 = 2;
pub const AOC_INTERPRETATION_NONE: u32 = 255;
pub const AOC_LIMIT_COMPONENT_OCTETS: u32 = 254;
pub const AOC_LIMIT_ELEMENT_OCTETS: u32 = 257;
pub const AOC_LIMIT_REPLY_OCTETS: u32 = 9;
pub const AOC_LIMIT_COMPONENTS: u32 = 127;
pub const AOC_FIRST_PLACE: u32 = 3;
pub const AOC_LIMIT_UNITS: u32 = 32;
pub const AOC_LIMIT_RATES: u32 = 10;
pub const AOC_LIMIT_CURRENCY_OCTETS: u32 = 10;
pub const AOC_LIMIT_DIGITS: u32 = 20;
pub const AOC_LIMIT_MODES: u32 = 7;
pub const AOC_LIMIT_EXTENSION_OCTETS: u32 = 242;
pub const AOC_LIMIT_CHARGE_TEXT: u32 = 1200;
pub const AOC_LIMIT_MESSAGE_OCTETS: u32 = 260;
pub const AOC_LIMIT_MESSAGE_NUMBERS: u32 = 1560;
pub const AOC_LIMIT_FRONT_OCTETS: u32 = 11;
pub const AOC_LIMIT_NUMBER: u32 = 16777215;
pub const AOC_LIMIT_MONTH_FIGURES: u32 = 4096;
pub const AOC_LIMIT_MONTH_CURRENCIES: u32 = 16;
pub const AOC_MONTH_TYPES: u32 = 17;
pub const AOC_MONTH_BILLINGS: u32 = 9;
pub const AOC_MONTH_NOT_BILLED: u32 = 8;
pub const AOC_ROW_NUMBERS: u32 = 6;
pub const AOC_REASON_OPEN: u32 = 1;
pub const AOC_REASON_PRICED: u32 = 2;
pub const AOC_REASON_PASSED_OVER: u32 = 3;
pub const AOC_REASON_NOT_AVAILABLE: u32 = 4;
pub const AOC_REASON_RUNNING: u32 = 5;
pub const AOC_REASON_REFUSED: u32 = 6;
pub const AOC_REASON_NOTHING: u32 = 7;
pub const AOC_PAIR_NUMBERS: u32 = 2;
pub const AOC_FROM_USER: u32 = 0;
pub const AOC_FROM_NETWORK: u32 = 1;
pub const AOC_LIMIT_CALLS: u32 = 64;
pub const AOC_RULE_KEPT: u32 = 0;
pub const AOC_RULE_PLACE: u32 = 1;
pub const AOC_RULE_FALL: u32 = 2;
pub const AOC_RULE_FREE: u32 = 3;
pub const AOC_RULE_FINAL: u32 = 4;

#[repr(C)]
#[derive(Clone, Copy, Debug, PartialEq)]
pub struct aoc_currency {
    pub count: u8,
    pub octets: [u8; 10],
}

#[repr(C)]
#[derive(Clone, Copy, Debug, PartialEq)]
pub struct aoc_money {
    pub currency: aoc_currency,
    pub multiplier: u8,
    pub number: u32,
}

#[repr(C)]
#[derive(Clone, Copy, Debug, PartialEq)]
pub struct aoc_association {
    pub id: u16,
    pub count: u16,
    pub kind: u8,
    pub plan: u8,
    pub digits: [u8; 20],
}

#[repr(C)]
#[derive(Clone, Copy, Debug, PartialEq)]
pub struct aoc_unit {
    pub known: u8,
    pub r#type: u8,
}

#[repr(C)]
#[derive(Clone, Copy, Debug, PartialEq)]
pub struct aoc_rate {
    pub item: u8,
    pub kind: u8,
    pub detail: u8,
    pub stepped: u8,
    pub scale: u8,
    pub step_scale: u8,
    pub multiplier: u8,
    pub currency: aoc_currency,
}

#[repr(C)]
#[derive(Clone, Copy, Debug, PartialEq)]
pub struct aoc_rate_numbers {
    pub number: u32,
    pub time: u32,
    pub step: u32,
}

#[repr(C)]
#[derive(Clone, Copy, Debug, PartialEq)]
pub struct aoc_charge {
    pub money: aoc_money,
    pub association: aoc_association,
    pub kind: u8,
    pub total: u8,
    pub billed: u8,
    pub billing: u8,
    pub arrangement: u8,
    pub count: u8,
    pub numbers: [u32; 32],
    pub octets: [u8; 192],
}

#[repr(C)]
#[derive(Clone, Copy, Debug, PartialEq)]
pub struct aoc_record {
    pub frame: u8,
    pub unnamed: u8,
    pub id: u16,
    pub operation: u8,
    pub error: u8,
    pub problem: u8,
    pub detail: u8,
    pub charge: aoc_charge,
}

#[repr(C)]
#[derive(Clone, Copy, Debug, PartialEq)]
pub struct aoc_answer {
    pub refusal: u32,
    pub offset: u32,
    pub record: aoc_record,
}

#[repr(C)]
#[derive(Clone, Copy, Debug, PartialEq)]
pub struct aoc_trunk {
    pub frame: u8,
    pub unnamed: u8,
    pub id: u16,
    pub error: u16,
    pub operation: u8,
    pub problem: u8,
    pub asked: u8,
    pub modes: [u8; 7],
    pub user: aoc_association,
    pub detail: u8,
    pub entity: u8,
    pub zero: [u8; 4],
    pub extended: u8,
    pub extent: u8,
    pub extension: [u8; 242],
    pub charge: aoc_charge,
}

#[repr(C)]
#[derive(Clone, Copy, Debug, PartialEq)]
pub struct aoc_either {
    pub refusal: u32,
    pub offset: u32,
    pub family: u32,
    pub record: aoc_record,
    pub trunk: aoc_trunk,
}

#[repr(C)]
#[derive(Clone, Copy, Debug, PartialEq)]
pub struct aoc_written {
    pub refusal: u32,
    pub count: u32,
}

#[repr(C)]
#[derive(Clone, Copy, Debug, PartialEq)]
pub struct aoc_services {
    pub s: u8,
    pub d: u8,
    pub e: u8,
}

#[repr(C)]
#[derive(Clone, Copy, Debug, PartialEq)]
pub struct aoc_identifiers {
    pub s: u16,
    pub d: u16,
    pub e: u16,
}

#[repr(C)]
#[derive(Clone, Copy, Debug, PartialEq)]
pub struct aoc_event {
    pub kind: u8,
    pub asked: aoc_services,
    pub s: u16,
    pub d: u16,
    pub e: u16,
}

#[repr(C)]
#[derive(Clone, Copy, Debug, PartialEq)]
pub struct aoc_outcome {
    pub number: u8,
    pub service: u8,
}

#[repr(C)]
#[derive(Clone, Copy, Debug, PartialEq)]
pub struct aoc_account {
    pub phase: u8,
    pub asked: aoc_services,
    pub s: u16,
    pub d: u16,
    pub e: u16,
    pub absent: aoc_services,
    pub conflict: aoc_services,
    pub rate: aoc_charge,
    pub running: aoc_charge,
    pub d_final: aoc_charge,
    pub e_final: aoc_charge,
}

#[repr(C)]
#[derive(Clone, Copy, Debug, PartialEq)]
pub struct aoc_closing {
    pub service: u32,
    pub charge: aoc_charge,
}

#[repr(C)]
#[derive(Clone, Copy, Debug, PartialEq)]
pub struct aoc_marks {
    pub absent: aoc_services,
    pub conflict: aoc_services,
}

#[repr(C)]
#[derive(Clone, Copy, Debug, PartialEq)]
pub struct aoc_pending {
    pub asked: aoc_services,
    pub unused: u8,
    pub s: u16,
    pub d: u16,
    pub e: u16,
}

#[repr(C)]
#[derive(Clone, Copy, Debug, PartialEq)]
pub struct aoc_unit_entry {
    pub known: u8,
    pub r#type: u8,
    pub number: u32,
}

#[repr(C)]
#[derive(Clone, Copy, Debug, PartialEq)]
pub struct aoc_rate_entry {
    pub item: u8,
    pub kind: u8,
    pub detail: u8,
    pub stepped: u8,
    pub scale: u8,
    pub step_scale: u8,
    pub time: u32,
    pub step: u32,
    pub money: aoc_money,
}

#[repr(C)]
#[derive(Clone, Copy, Debug, PartialEq)]
pub struct aoc_why_answer {
    pub refusal: u32,
    pub reason: u32,
    pub event: u64,
}

#[repr(C)]
#[derive(Clone, Copy, Debug, PartialEq)]
pub struct aoc_trace_answer {
    pub refusal: u64,
    pub message: u64,
    pub events: u64,
    pub octets: u64,
}

#[repr(C)]
#[derive(Clone, Copy, Debug, PartialEq)]
pub struct aoc_plain_outcome_answer {
    pub refusal: u16,
    pub outcome: aoc_outcome,
}

#[repr(C)]
#[derive(Clone, Copy, Debug, PartialEq)]
pub struct aoc_plain_phase_answer {
    pub refusal: u16,
    pub phase: u16,
}

#[repr(C)]
#[derive(Clone, Copy, Debug, PartialEq)]
pub struct aoc_plain_pending_answer {
    pub refusal: u16,
    pub pending: aoc_pending,
}

#[repr(C)]
#[derive(Clone, Copy, Debug, PartialEq)]
pub struct aoc_plain_marks_answer {
    pub refusal: u16,
    pub marks: aoc_marks,
}

#[repr(C)]
#[derive(Clone, Copy, Debug, PartialEq)]
pub struct aoc_plain_charge_answer {
    pub refusal: u32,
    pub charge: aoc_charge,
}

#[repr(C)]
#[derive(Clone, Copy, Debug, PartialEq)]
pub struct aoc_plain_closing_answer {
    pub refusal: u32,
    pub closing: aoc_closing,
}

#[repr(C)]
#[derive(Clone, Copy, Debug, PartialEq)]
pub struct aoc_priced {
    pub refusal: u32,
    pub is_free: u8,
    pub currency: aoc_currency,
    pub thousandths: f64,
    pub quotient: f64,
}

#[repr(C)]
#[derive(Clone, Copy, Debug, PartialEq)]
pub struct aoc_board {
    pub keys: [u32; 64],
    pub calls: [aoc_account; 64],
}

#[repr(C)]
#[derive(Clone, Copy, Debug, PartialEq)]
pub struct aoc_collected {
    pub refusal: u32,
    pub closing: aoc_closing,
}

#[repr(C)]
#[derive(Clone, Copy, Debug, PartialEq)]
pub struct aoc_viewed {
    pub refusal: u32,
    pub account: aoc_account,
}

#[repr(C)]
#[derive(Clone, Copy, Debug, PartialEq)]
pub struct aoc_fault_answer {
    pub refusal: u32,
    pub rule: u32,
    pub event: u64,
}

#[repr(C)]
#[derive(Clone, Copy, Debug, PartialEq)]
pub struct aoc_month_currency {
    pub currency: aoc_currency,
    pub unused: u8,
    pub calls: u32,
    pub sum: u64,
}

#[repr(C)]
#[derive(Clone, Copy, Debug, PartialEq)]
pub struct aoc_month {
    pub added: u32,
    pub count: u32,
    pub absent: u32,
    pub free_calls: u32,
    pub units: [u64; 17],
    pub rows: [aoc_month_currency; 16],
    pub table: [[u32; 9]; 2],
}

#[repr(C)]
#[derive(Clone, Copy, Debug, PartialEq)]
pub struct aoc_month_added {
    pub refusal: u64,
    pub month: aoc_month,
}

unsafe extern "C" {
    pub fn aoc_layout_5() -> u32;
    pub fn aoc_version() -> u32;
    pub fn aoc_read(octets: *const u8, length: usize, answer: *mut aoc_answer) -> u32;
    pub fn aoc_write(record: *const aoc_record, buffer: *mut u8, room: usize) -> aoc_written;
    pub fn aoc_reply(octets: *const u8, length: usize, buffer: *mut u8, room: usize) -> aoc_written;
    pub fn aoc_next(octets: *const u8, length: usize, place: *mut usize, answer: *mut aoc_answer) -> bool;
    pub fn aoc_write_element(octets: *const u8, length: usize, buffer: *mut u8, room: usize) -> aoc_written;
    pub fn aoc_write_element_by(profile: u8, octets: *const u8, length: usize, buffer: *mut u8, room: usize) -> aoc_written;
    pub fn aoc_request(service: u8, id: u16, buffer: *mut u8, room: usize) -> aoc_written;
    pub fn aoc_read_by(profile: u8, octets: *const u8, length: usize, answer: *mut aoc_either) -> u32;
    pub fn aoc_next_by(octets: *const u8, length: usize, place: *mut usize, answer: *mut aoc_either) -> bool;
    pub fn aoc_write_by(profile: u8, either: *const aoc_either, buffer: *mut u8, room: usize) -> aoc_written;
    pub fn aoc_reply_by(profile: u8, octets: *const u8, length: usize, buffer: *mut u8, room: usize) -> aoc_written;
    pub fn aoc_is_for_exchange(answer: *const aoc_either, octets: *const u8, length: usize) -> bool;
    pub fn aoc_interpretation_in(octets: *const u8, length: usize) -> u8;
    pub fn aoc_interpretation_of(operation: u8) -> u8;
    pub fn aoc_write_front(interpretation: u8, buffer: *mut u8, room: usize) -> aoc_written;
    pub fn aoc_write_trunk_element(interpretation: u8, octets: *const u8, length: usize, buffer: *mut u8, room: usize) -> aoc_written;
    pub fn aoc_charge_request(id: u16, modes: *const u8, count: usize, buffer: *mut u8, room: usize) -> aoc_written;
    pub fn aoc_final_charge_request(id: u16, buffer: *mut u8, room: usize) -> aoc_written;
    pub fn aoc_complete_request(id: u16, user: *const aoc_association, buffer: *mut u8, room: usize) -> aoc_written;
    pub fn aoc_diversion_request(id: u16, user: *const aoc_association, diversion: u8, buffer: *mut u8, room: usize) -> aoc_written;
    pub fn aoc_is_refusal(number: u32) -> bool;
    pub fn aoc_thousandths(number: u32, multiplier: u8) -> u64;
    pub fn aoc_unit_at(charge: *const aoc_charge, index: usize) -> aoc_unit_entry;
    pub fn aoc_rate_at(charge: *const aoc_charge, index: usize) -> aoc_rate_entry;
    pub fn aoc_next_identifier(id: u16) -> u16;
    pub fn aoc_three_identifiers(last: u16) -> aoc_identifiers;
    pub fn aoc_no_services() -> aoc_services;
    pub fn aoc_with_service(set: aoc_services, service: u8) -> aoc_services;
    pub fn aoc_has_service(set: aoc_services, service: u8) -> bool;
    pub fn aoc_identifier_of(ids: aoc_identifiers, service: u8) -> u16;
    pub fn aoc_case_of(service: u8) -> u8;
    pub fn aoc_fresh() -> aoc_account;
    pub fn aoc_step(account: *mut aoc_account, event: aoc_event, octets: *const u8, length: usize) -> aoc_outcome;
    pub fn aoc_event_of(kind: u8) -> aoc_event;
    pub fn aoc_event_of_setup(asked: aoc_services, ids: aoc_identifiers) -> aoc_event;
    pub fn aoc_setup(account: *mut aoc_account, asked: aoc_services, ids: aoc_identifiers) -> aoc_outcome;
    pub fn aoc_connect(account: *mut aoc_account) -> aoc_outcome;
    pub fn aoc_clear(account: *mut aoc_account) -> aoc_outcome;
    pub fn aoc_released(account: *mut aoc_account) -> aoc_outcome;
    pub fn aoc_component(account: *mut aoc_account, octets: *const u8, length: usize) -> aoc_outcome;
    pub fn aoc_suspend(account: *mut aoc_account) -> aoc_outcome;
    pub fn aoc_resume(account: *mut aoc_account) -> aoc_outcome;
    pub fn aoc_rate_of(account: *const aoc_account) -> aoc_charge;
    pub fn aoc_running_of(account: *const aoc_account) -> aoc_charge;
    pub fn aoc_closing_of(account: *const aoc_account) -> aoc_closing;
    pub fn aoc_marks_of(account: *const aoc_account) -> aoc_marks;
    pub fn aoc_pending_of(account: *const aoc_account) -> aoc_pending;
    pub fn aoc_phase_of(account: *const aoc_account) -> u8;
    pub fn aoc_row_of(event: aoc_event, count: u16, row: *mut u16);
    pub fn aoc_event_at(row: *const u16) -> aoc_event;
    pub fn aoc_take(account: *mut aoc_account, event: aoc_event, octets: *const u8, length: usize, row: *mut u16) -> aoc_outcome;
    pub fn aoc_replay(rows: *const u16, numbers: usize, octets: *const u8, length: usize, account: *mut aoc_account) -> u32;
    pub fn aoc_why(rows: *const u16, numbers: usize, octets: *const u8, length: usize) -> aoc_why_answer;
    pub fn aoc_trace_events(pairs: *const u32, numbers: usize, octets: *const u8, length: usize, rows: *mut u16, row_room: usize, out: *mut u8, out_room: usize) -> aoc_trace_answer;
    pub fn aoc_message_events(direction: u32, octets: *const u8, length: usize, rows: *mut u16, row_room: usize, out: *mut u8, out_room: usize) -> aoc_trace_answer;
    pub fn aoc_call_key(direction: u32, octets: *const u8, length: usize, key: *mut u16) -> bool;
    pub fn aoc_next_facility(octets: *const u8, length: usize, place: *mut usize, from: *mut usize) -> bool;
    pub fn aoc_plain_outcome(rows: *const u16, numbers: usize, octets: *const u8, length: usize, event: usize) -> aoc_plain_outcome_answer;
    pub fn aoc_plain_phase(rows: *const u16, numbers: usize, octets: *const u8, length: usize) -> aoc_plain_phase_answer;
    pub fn aoc_plain_pending(rows: *const u16, numbers: usize, octets: *const u8, length: usize) -> aoc_plain_pending_answer;
    pub fn aoc_plain_rate(rows: *const u16, numbers: usize, octets: *const u8, length: usize) -> aoc_plain_charge_answer;
    pub fn aoc_plain_running(rows: *const u16, numbers: usize, octets: *const u8, length: usize) -> aoc_plain_charge_answer;
    pub fn aoc_plain_closing(rows: *const u16, numbers: usize, octets: *const u8, length: usize) -> aoc_plain_closing_answer;
    pub fn aoc_plain_marks(rows: *const u16, numbers: usize, octets: *const u8, length: usize) -> aoc_plain_marks_answer;
    pub fn aoc_price(closing: aoc_closing) -> aoc_priced;
    pub fn aoc_board_clear(board: *mut aoc_board);
    pub fn aoc_board_event(board: *mut aoc_board, reference: u16, event: aoc_event, octets: *const u8, length: usize) -> aoc_outcome;
    pub fn aoc_board_take(board: *mut aoc_board, reference: u16, event: aoc_event, octets: *const u8, length: usize, row: *mut u16) -> aoc_outcome;
    pub fn aoc_board_replay(board: *mut aoc_board, reference: u16, rows: *const u16, numbers: usize, octets: *const u8, length: usize) -> u32;
    pub fn aoc_board_collect(board: *mut aoc_board, reference: u16) -> aoc_collected;
    pub fn aoc_board_view(board: *const aoc_board, reference: u16) -> aoc_viewed;
    pub fn aoc_fault(rows: *const u16, numbers: usize, octets: *const u8, length: usize) -> aoc_fault_answer;
    pub fn aoc_accepted_events(rows: *const u16, numbers: usize, octets: *const u8, length: usize, kept: *mut u16, row_room: usize, out: *mut u8, out_room: usize) -> aoc_trace_answer;
    pub fn aoc_fault_of_accepted(rows: *const u16, numbers: usize, octets: *const u8, length: usize, kept: *mut u16, row_room: usize, out: *mut u8, out_room: usize) -> aoc_fault_answer;
    pub fn aoc_month_empty() -> aoc_month;
    pub fn aoc_month_add(month: aoc_month, closing: aoc_closing) -> aoc_month_added;
    pub fn aoc_month_post(month: *mut aoc_month, closing: *const aoc_closing) -> u32;
    pub fn aoc_month_rows(month: *const aoc_month) -> usize;
    pub fn aoc_month_row(month: *const aoc_month, index: usize) -> aoc_month_currency;
    pub fn aoc_month_units(month: *const aoc_month, r#type: usize) -> u64;
    pub fn aoc_month_place(month: *const aoc_month, service: u32, billing: u32) -> u32;
    pub fn aoc_refusal_text(refusal: u32) -> *const c_char;
    pub fn aoc_outcome_text(number: u32) -> *const c_char;
    pub fn aoc_phase_text(phase: u32) -> *const c_char;
    pub fn aoc_reason_text(reason: u32) -> *const c_char;
    pub fn aoc_rule_text(rule: u32) -> *const c_char;
    pub fn aoc_billing_text(billing: u32) -> *const c_char;
    pub fn aoc_item_text(item: u32) -> *const c_char;
    pub fn aoc_volume_text(volume: u32) -> *const c_char;
    pub fn aoc_plan_text(plan: u32) -> *const c_char;
    pub fn aoc_event_text(kind: u32) -> *const c_char;
    pub fn aoc_service_text(service: u32) -> *const c_char;
    pub fn aoc_family_text(family: u32) -> *const c_char;
    pub fn aoc_frame_text(frame: u32) -> *const c_char;
    pub fn aoc_operation_text(operation: u32) -> *const c_char;
    pub fn aoc_error_text(error: u32) -> *const c_char;
    pub fn aoc_interpretation_text(interpretation: u32) -> *const c_char;
    pub fn aoc_print_charge(buffer: *mut c_char, room: usize, charge: *const aoc_charge) -> usize;
    pub fn aoc_print_currency(buffer: *mut c_char, room: usize, currency: *const aoc_currency) -> usize;
    pub fn aoc_print_money(buffer: *mut c_char, room: usize, money: *const aoc_money) -> usize;
}
pub use aoc_layout_5 as aoc_layout;
// end of what the headers declare
