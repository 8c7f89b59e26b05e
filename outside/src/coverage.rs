//! Counts which answers were reached: by each kind of event, and by each bell
//! code when it is sent and when it is acknowledged. All that the rules allow
//! has to be reached, and nothing else.

use crate::bench::Bell;
use crate::event::Action;
use crate::field::{Code, Field, Kind};
use crate::run::Step;

/// Every answer that an event of a sheet can get.
const ANSWERS: [u8; 13] = [0, 4, 5, 6, 7, 8, 9, 10, 11, 12, 13, 90, 91];

pub struct Coverage {
    kinds: Table,
    sent: Table,
    acknowledged: Table,
}

impl Coverage {
    pub fn new() -> Self {
        Self {
            kinds: Table::new("kind", Kind::every().map(kind_row)),
            sent: Table::new("code sent", Code::every().map(sent_row)),
            acknowledged: Table::new(
                "code acknowledged",
                Code::every().map(acknowledged_row).chain([nothing_to_acknowledge()]),
            ),
        }
    }

    pub fn count(&mut self, step: &Step) {
        let answer = step.answer.number();
        let kind = step.event.action.kind();
        self.kinds.count(kind.number().into(), answer);
        match step.event.action {
            Action::Send { code, .. } => self.sent.count(code_row(code), answer),
            Action::Acknowledge { .. } => {
                let row = match step.before.map(|view| view.bell) {
                    Some(Bell::Pending { code, .. }) => code_row(code),
                    _ => self.acknowledged.rows.len() - 1,
                };
                self.acknowledged.count(row, answer);
            }
            _ => {}
        }
    }

    pub fn is_complete(&self) -> bool {
        self.tables().iter().all(|table| table.rows.iter().all(Row::is_complete))
    }

    pub fn report(&self) -> String {
        self.tables().map(Table::report).concat()
    }

    fn tables(&self) -> [&Table; 3] {
        [&self.kinds, &self.sent, &self.acknowledged]
    }
}

/// The row of a code in the tables of codes; the first code has number 1.
fn code_row(code: Code) -> usize {
    usize::from(code.number()) - 1
}

fn kind_row(kind: Kind) -> Row {
    let reachable: &[u8] = match kind {
        Kind::Call | Kind::Answer | Kind::Error => &[0, 4, 5],
        Kind::Send => &[0, 4, 5, 6, 7, 8, 9, 10, 11, 12],
        Kind::Acknowledge => &[0, 4, 5, 7, 8, 9, 10, 11],
        Kind::StopControl => &[0, 4, 7, 8, 10, 11],
        Kind::HomeControl => &[0, 4, 7, 8, 10],
        Kind::Enters => &[0, 4, 90],
        Kind::Leave => &[0, 4, 91],
        Kind::TrolleyStarts => &[0, 4, 7, 8],
        Kind::TrolleyEnds => &[0, 4, 8],
        Kind::Fails | Kind::Roll => &[0, 4],
        Kind::Reset => &[0, 4, 13],
        Kind::Resume => &[0, 4, 10, 11, 13],
    };
    Row::new(format!("{} {kind}", kind.number()), reachable)
}

/// Without a permit both controls are normal, so a code that needs no permit is
/// never refused for a control.
fn sent_row(code: Code) -> Row {
    let reachable: &[u8] = match code {
        Code::IsLineClear | Code::Trolley | Code::BlockForward | Code::BlockBack => {
            &[0, 4, 5, 6, 7, 8, 9, 11]
        }
        Code::TrainEntering | Code::CancelLast => &[0, 4, 5, 6, 7, 8, 9, 10],
        Code::TrainOut => &[0, 4, 5, 6, 7, 8, 9, 10, 11, 12],
        Code::ObstructionRemoved => &[0, 4, 5, 7, 8, 9, 11],
    };
    Row::new(format!("{} {code}", code.number()), reachable)
}

/// While a code is pending no permit can be given, so one that was missing is
/// missing still; and under a used permit the stop control stays normal.
fn acknowledged_row(code: Code) -> Row {
    let reachable: &[u8] = match code {
        Code::IsLineClear | Code::Trolley | Code::BlockForward | Code::BlockBack => {
            &[0, 5, 7, 9, 11]
        }
        Code::TrainEntering => &[0, 5, 7, 8, 9],
        Code::TrainOut => &[0, 5, 9],
        Code::CancelLast => &[0, 5, 7, 8, 9, 10],
        Code::ObstructionRemoved => &[0, 5, 7, 8, 9, 11],
    };
    Row::new(format!("{} {code}", code.number()), reachable)
}

fn nothing_to_acknowledge() -> Row {
    Row::new("no code pending".to_string(), &[4, 5])
}

struct Table {
    title: &'static str,
    rows: Vec<Row>,
}

struct Row {
    name: String,
    reachable: &'static [u8],
    /// How often each answer was reached, in the order of the answers.
    counts: [usize; ANSWERS.len()],
}

impl Table {
    fn new(title: &'static str, rows: impl Iterator<Item = Row>) -> Self {
        Self { title, rows: rows.collect() }
    }

    fn count(&mut self, row: usize, answer: u8) {
        let column = ANSWERS.iter().position(|&known| known == answer);
        self.rows[row].counts[column.expect("an answer has a column")] += 1;
    }

    fn report(&self) -> String {
        let head = ANSWERS.map(|answer| format!("{answer:>8}")).concat();
        let rows: String = self.rows.iter().map(Row::report).collect();
        format!("{:<22}{head}\n{rows}", self.title)
    }
}

impl Row {
    fn new(name: String, reachable: &'static [u8]) -> Self {
        Self { name, reachable, counts: [0; ANSWERS.len()] }
    }

    /// For each answer, whether it can be reached and how often it was.
    fn cells(&self) -> impl Iterator<Item = (bool, usize)> + '_ {
        ANSWERS
            .iter()
            .zip(self.counts)
            .map(|(answer, count)| (self.reachable.contains(answer), count))
    }

    fn is_complete(&self) -> bool {
        self.cells().all(|(reachable, count)| reachable == (count > 0))
    }

    fn report(&self) -> String {
        let cells: String = self.cells().map(cell).collect();
        format!("{:<22}{cells}\n", self.name)
    }
}

fn cell((reachable, count): (bool, usize)) -> String {
    match (reachable, count) {
        (false, 0) => format!("{:>8}", "."),
        (true, 0) => format!("{:>8}", "MISSING"),
        (true, count) => format!("{count:>8}"),
        (false, count) => format!("{:>8}", format!("{count} !")),
    }
}
