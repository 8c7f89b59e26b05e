//! What every line record keeps: the needle is closed exactly without a permit
//! and clear only for a train, and the stop signal is off only for a line clear
//! that is unused, with its control reversed and the line not suspended.

use crate::bench::{Needle, Permit, Record, Signal};
use crate::field::Position;

pub fn is_consistent(record: &Record) -> bool {
    let closed = record.needle == Needle::Closed;
    let clear = record.needle == Needle::Clear;
    let may_be_off = record.unused_line_clear()
        && record.stop_control == Position::Reversed
        && !record.suspended;
    closed == (record.permit == Permit::None)
        && (!clear || record.permit == Permit::Train)
        && (record.stop_signal == Signal::On || may_be_off)
}
