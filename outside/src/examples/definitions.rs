//! What the examples are. A new one is a function here and a line in `all`.

use super::Example;
use crate::bench::Role::{Despatching, Receiving};
use crate::field::Position::{Normal, Reversed};
use crate::field::{Code, Line, Place, Turn};
use crate::script::Script;

pub fn all() -> Vec<Example> {
    vec![
        two_trains(),
        train_through(),
        consent_withheld(),
        cancel_wrong_turn(),
        cancel_too_late(),
        cancel_under_signal(),
        trolley_arrived(),
        trolley_returned(),
        blocking_forward(),
        blocking_back(),
        passed_at_on(),
        axles_unexpected(),
        reset_under_train(),
        too_many_axles(),
        bell_out_of_turn(),
        two_sections(),
        no_such_section(),
        damaged_sheet(),
    ]
}

fn up() -> Script {
    Script::new(0, Line::Up)
}

fn down() -> Script {
    Script::new(0, Line::Down)
}

fn two_trains() -> Example {
    Example::new(
        "two-trains",
        "A train enters with line clear; a second one follows it past the stop signal at on, and the line is suspended.",
        1,
        up().line_clear().stop_control(Reversed).enters(40).enters(4),
    )
}

fn train_through() -> Example {
    Example::new(
        "train-through",
        "A train goes through the section, from line clear to train out, with every bell message in its place.",
        1,
        up().line_clear().train_departs(48).train_arrives(48).train_out(),
    )
}

fn consent_withheld() -> Example {
    Example::new(
        "consent-withheld",
        "The receiving station does not give line clear when it is first asked, and gives it when it is asked again.",
        1,
        up().ring(Despatching, Code::IsLineClear, Turn::None).withhold(Receiving).line_clear(),
    )
}

fn cancel_wrong_turn() -> Example {
    Example::new(
        "cancel-wrong-turn",
        "A line clear is cancelled; the acknowledgement with a turn to the right is refused, the one to the left is accepted.",
        1,
        up().line_clear().cancel(Turn::Right).consent(Receiving, Turn::Left),
    )
}

fn cancel_too_late() -> Example {
    Example::new(
        "cancel-too-late",
        "A train passes the stop signal between the cancelling code and its acknowledgement, so the line clear can no longer be cancelled.",
        1,
        up().line_clear()
            .ring(Despatching, Code::CancelLast, Turn::None)
            .stop_control(Reversed)
            .enters(32)
            .consent(Receiving, Turn::Left)
            .given_in_error(Despatching),
    )
}

fn cancel_under_signal() -> Example {
    Example::new(
        "cancel-under-signal",
        "A line clear is not cancelled while the stop signal is off; once the control is put back it is.",
        1,
        up().line_clear()
            .ring(Despatching, Code::CancelLast, Turn::None)
            .stop_control(Reversed)
            .consent(Receiving, Turn::Left)
            .stop_control(Normal)
            .consent(Receiving, Turn::Left),
    )
}

fn trolley_arrived() -> Example {
    Example::new(
        "trolley-arrived",
        "A trolley goes through to the receiving station; the detector never sees it.",
        1,
        down()
            .trolley_given()
            .trolley_starts()
            .ring(Despatching, Code::TrainEntering, Turn::None)
            .consent(Receiving, Turn::None)
            .home_control(Reversed)
            .trolley_ends(Place::Arrived)
            .home_control(Normal)
            .train_out(),
    )
}

fn trolley_returned() -> Example {
    Example::new(
        "trolley-returned",
        "A trolley comes back to the despatching station; train out is refused for it, and its permit is cancelled with a turn to the right.",
        1,
        down()
            .trolley_given()
            .trolley_starts()
            .trolley_ends(Place::Returned)
            .ring(Receiving, Code::TrainOut, Turn::Right)
            .given_in_error(Receiving)
            .cancel(Turn::Right),
    )
}

fn blocking_forward() -> Example {
    Example::new(
        "blocking-forward",
        "The despatching station blocks the line forward, no line clear can be asked for meanwhile, and the obstruction is removed.",
        1,
        up().block_forward()
            .ring(Despatching, Code::IsLineClear, Turn::None)
            .given_in_error(Despatching)
            .forward_removed(),
    )
}

fn blocking_back() -> Example {
    Example::new(
        "blocking-back",
        "The receiving station blocks the line back; only that station can tell that the obstruction is removed.",
        1,
        up().block_back()
            .ring(Despatching, Code::ObstructionRemoved, Turn::None)
            .given_in_error(Despatching)
            .back_removed(),
    )
}

fn passed_at_on() -> Example {
    Example::new(
        "passed-at-on",
        "A train passes the stop signal at on, which suspends its line; its leaving suspends the other line too, and the stations resume working on both.",
        1,
        up().enters(20)
            .ring(Despatching, Code::IsLineClear, Turn::None)
            .given_in_error(Receiving)
            .resume(Despatching)
            .leave(20)
            .resume(Despatching)
            .resume(Despatching)
            .resume(Receiving)
            .other_line()
            .both_resume()
            .other_line()
            .line_clear(),
    )
}

fn axles_unexpected() -> Example {
    Example::new(
        "axles-unexpected",
        "Axles leave the down line that never entered it; both lines are suspended, the up stop signal goes on, and working is resumed on both.",
        1,
        up().line_clear()
            .stop_control(Reversed)
            .other_line()
            .leave(2)
            .both_reset()
            .both_resume()
            .other_line()
            .resume(Despatching)
            .stop_control(Normal)
            .both_resume(),
    )
}

fn reset_under_train() -> Example {
    Example::new(
        "reset-under-train",
        "The detector is reset under a standing train; it shows clear, but train out is refused until the train has arrived and the detector has been reset once more.",
        1,
        up().line_clear()
            .train_departs(24)
            .detector_fails()
            .both_reset()
            .ring(Receiving, Code::TrainOut, Turn::Right)
            .leave(24)
            .send(Receiving, Code::TrainOut, Turn::Right)
            .both_reset()
            .send(Receiving, Code::TrainOut, Turn::Right)
            .consent(Despatching, Turn::None),
    )
}

fn too_many_axles() -> Example {
    Example::new(
        "too-many-axles",
        "The detector counts a thousand axles and fails at the next one.",
        1,
        up().enters(250).enters(250).enters(250).enters(250).enters(1),
    )
}

fn bell_out_of_turn() -> Example {
    Example::new(
        "bell-out-of-turn",
        "The bell is rung by the wrong station and at the wrong time, which is refused, and a code given in error is dropped.",
        1,
        up().answer(Receiving)
            .call(Despatching)
            .answer(Despatching)
            .answer(Receiving)
            .send(Receiving, Code::TrainOut, Turn::Right)
            .send(Despatching, Code::Trolley, Turn::None)
            .call(Receiving)
            .given_in_error(Despatching)
            .given_in_error(Despatching)
            .line_clear(),
    )
}

fn two_sections() -> Example {
    Example::new(
        "two-sections",
        "Two sections are worked at once: a train on the up line of the one, a trolley on the down line of the other.",
        2,
        up().line_clear()
            .over_to(1, Line::Down)
            .trolley_given()
            .over_to(0, Line::Up)
            .train_departs(16)
            .over_to(1, Line::Down)
            .trolley_starts()
            .over_to(0, Line::Up)
            .train_arrives(16)
            .over_to(1, Line::Down)
            .trolley_ends(Place::Arrived)
            .train_out()
            .over_to(0, Line::Up)
            .train_out(),
    )
}

fn no_such_section() -> Example {
    Example::new(
        "no-such-section",
        "An event names a section that the bench does not have; it is refused, and the next events are worked.",
        2,
        up().call(Despatching).over_to(5, Line::Up).answer(Receiving).over_to(0, Line::Up).answer(Receiving),
    )
}

fn damaged_sheet() -> Example {
    Example::new(
        "damaged-sheet",
        "The sheet has a train of 251 axles, one more than an event can have; the register stops there.",
        1,
        up().line_clear().stop_control(Reversed),
    )
    .ending_in(&[7, 0, 0, 129, 123, 0, 0, 0])
}
