//! Event bytes (01, "Event bytes").

use crate::keyboard::FIRST_KEYCODE;
use crate::modifiers::ALL;
use crate::names;
use crate::numbers::Number;

pub const RECORD_BYTES: usize = 32;
pub const LITTLE_ENDIAN: u8 = b'l';
pub const BIG_ENDIAN: u8 = b'B';

pub const KEYCODE_AT: usize = 1;
/// Where the time and the state of the codes 2..8 stand.
pub const TIME_AT: usize = 4;
pub const STATE_AT: usize = 28;

/// Where a type's detail stands: the mode of enter, leave and focus, the request of mapping.
pub fn detail_at(code: u8) -> Option<usize> {
    match code {
        names::KEY_PRESS | names::KEY_RELEASE => Some(KEYCODE_AT),
        names::BUTTON_PRESS..=names::MOTION_NOTIFY => Some(1),
        names::ENTER_NOTIFY | names::LEAVE_NOTIFY => Some(30),
        names::FOCUS_IN | names::FOCUS_OUT => Some(8),
        names::MAPPING_NOTIFY => Some(4),
        _ => None,
    }
}

/// A read event. "Fields not named for a type are 0."
#[derive(Clone, Copy, Debug, Default, PartialEq, Eq)]
pub struct Event {
    pub code: u8,
    /// The keycode, button, motion detail, mode or request.
    pub detail: u8,
    pub time: u32,
    /// Bits 0..12.
    pub state: u16,
}

impl Event {
    /// "Any two of code 6 count, whatever state or detail."
    pub fn is_motion(&self) -> bool {
        self.code == names::MOTION_NOTIFY
    }
}

#[derive(Clone, Copy)]
enum Order {
    Little,
    Big,
}

/// Reads a record, or refuses it with 13.
pub fn read_record(record: &[u8], order: u8) -> Result<Event, Number> {
    let order = match order {
        LITTLE_ENDIAN => Order::Little,
        BIG_ENDIAN => Order::Big,
        _ => return Err(Number::BadRecord),
    };
    let record: &[u8; RECORD_BYTES] = record.try_into().map_err(|_| Number::BadRecord)?;
    let event = fields(record, order);
    let has_type = (names::FIRST_CODE..=names::LAST_CODE).contains(&event.code);
    let has_keycode = !names::is_key(event.code) || event.detail >= FIRST_KEYCODE;
    match has_type && has_keycode {
        true => Ok(event),
        false => Err(Number::BadRecord),
    }
}

/// The fields of a record, whatever its code.
fn fields(record: &[u8; RECORD_BYTES], order: Order) -> Event {
    // The top bit marks an event that a client sent.
    let code = record[0] & 0x7F;
    let detail = detail_at(code).map_or(0, |at| record[at]);
    let (time, state) = match names::has_state(code) {
        true => (
            card32(record, TIME_AT, order),
            card16(record, STATE_AT, order),
        ),
        false => (0, 0),
    };
    Event {
        code,
        detail,
        time,
        state: state & ALL,
    }
}

fn card16(record: &[u8; RECORD_BYTES], at: usize, order: Order) -> u16 {
    let bytes = [record[at], record[at + 1]];
    match order {
        Order::Little => u16::from_le_bytes(bytes),
        Order::Big => u16::from_be_bytes(bytes),
    }
}

fn card32(record: &[u8; RECORD_BYTES], at: usize, order: Order) -> u32 {
    let bytes = [record[at], record[at + 1], record[at + 2], record[at + 3]];
    match order {
        Order::Little => u32::from_le_bytes(bytes),
        Order::Big => u32::from_be_bytes(bytes),
    }
}
