//! Sheets whose registers were worked out by hand.

use super::Sample;

const FAMILY: &str = "worked out by hand";

pub fn samples() -> Vec<Sample> {
    REGISTERS
        .iter()
        .map(|(sheet, register)| Sample {
            family: FAMILY,
            sheet: sheet.to_vec(),
            expected: Some(register.to_string()),
        })
        .collect()
}

const REGISTERS: &[(&[u8], &str)] = &[
    (&[], "stop 1 at 0\n"),
    (&[9, 0, 0, 0], "stop 4 at 0\n"),
    (&[8], "sections 8\nend 0\n"),
    (&[1, 0, 0, 0, 15], "sections 1\n0 0 Cnnc Cnnc\nstop 3 at 4\n"),
    (&[1, 14, 0, 0, 6], "sections 1\n0 0 Cnnc Cnnc\nend 1\n"),
    (&[1, 8, 0, 0, 1], "sections 1\n0 91 Cnnx Cnnc\nend 1\n"),
    (&[1, 7, 0, 1, 129, 122], "sections 1\n0 90 Cnnc Cnno\nend 1\n"),
    (&[1, 7, 0, 1, 129, 123], "sections 1\nstop 3 at 4\n"),
    (TRAIN, TRAIN_REGISTER),
    (RESET_UNDER_TRAIN, RESET_UNDER_TRAIN_REGISTER),
    (TRAIN_CANCELLED, TRAIN_CANCELLED_REGISTER),
    (TROLLEY_CANCELLED, TROLLEY_CANCELLED_REGISTER),
    (BOTH_SUSPENDED, BOTH_SUSPENDED_REGISTER),
    (FULL_LINE, FULL_LINE_REGISTER),
    (RESUMED_LINE_CLEAR, RESUMED_LINE_CLEAR_REGISTER),
    (BLOCKED_BACK, BLOCKED_BACK_REGISTER),
    (BLOCKED_FORWARD, BLOCKED_FORWARD_REGISTER),
    (BELL, BELL_REGISTER),
];

/// A train through the down line. Its codes are sent too early at first.
#[rustfmt::skip]
const TRAIN: &[u8] = &[
    1,
    0, 0, 1,
    1, 0, 0,
    2, 0, 1, 1, 1, 0,
    3, 0, 0, 1, 2,
    5, 0, 1, 1,
    7, 0, 1, 129, 122,
    0, 0, 1,
    1, 0, 0,
    2, 0, 1, 1, 2, 0,
    5, 0, 1, 0,
    2, 0, 1, 1, 2, 0,
    3, 0, 0, 1, 1,
    6, 0, 1, 1,
    8, 0, 1, 129, 121,
    0, 0, 0,
    1, 0, 1,
    2, 0, 1, 0, 3, 2,
    6, 0, 1, 0,
    2, 0, 1, 0, 3, 2,
    8, 0, 1, 1,
    2, 0, 1, 0, 3, 0,
    2, 0, 1, 0, 3, 2,
    3, 0, 1, 1, 2,
    3, 0, 1, 0, 0,
    3, 0, 1, 1, 0,
];

const TRAIN_REGISTER: &str = "\
sections 1
0 0 Cnnc Cnnc
1 0 Cnnc Cnnc
2 0 Cnnc Cnnc
3 0 Cnnc Gnnc
4 0 Cnnc Gfnc
5 0 Cnnc Gnno
6 0 Cnnc Gnno
7 0 Cnnc Gnno
8 10 Cnnc Gnno
9 0 Cnnc Gnno
10 0 Cnnc Gnno
11 0 Cnnc Tnno
12 0 Cnnc Tnfo
13 0 Cnnc Tnno
14 0 Cnnc Tnno
15 0 Cnnc Tnno
16 10 Cnnc Tnno
17 0 Cnnc Tnno
18 11 Cnnc Tnno
19 0 Cnnc Tnnc
20 9 Cnnc Tnnc
21 0 Cnnc Cnnc
22 9 Cnnc Cnnc
23 9 Cnnc Cnnc
24 0 Cnnc Cnnc
end 25
";

/// The detector is reset while a train stands on the line. The train out is
/// refused, then the train's axles are more than the detector knows of.
#[rustfmt::skip]
const RESET_UNDER_TRAIN: &[u8] = &[
    1,
    0, 0, 0,
    1, 0, 1,
    2, 0, 0, 0, 1, 0,
    3, 0, 1, 1, 2,
    5, 0, 0, 1,
    7, 0, 0, 4,
    5, 0, 0, 0,
    0, 0, 0,
    1, 0, 1,
    2, 0, 0, 0, 2, 0,
    3, 0, 1, 1, 1,
    11, 0, 0,
    12, 0, 0, 0,
    12, 0, 0, 0,
    12, 0, 0, 1,
    0, 0, 1,
    1, 0, 0,
    2, 0, 0, 1, 3, 2,
    12, 0, 0, 0,
    8, 0, 0, 4,
    2, 0, 0, 1, 3, 2,
    4, 0, 0,
    4, 0, 0,
];

const RESET_UNDER_TRAIN_REGISTER: &str = "\
sections 1
0 0 Cnnc Cnnc
1 0 Cnnc Cnnc
2 0 Cnnc Cnnc
3 0 Gnnc Cnnc
4 0 Gfnc Cnnc
5 0 Gnno Cnnc
6 0 Gnno Cnnc
7 0 Gnno Cnnc
8 0 Gnno Cnnc
9 0 Gnno Cnnc
10 0 Tnno Cnnc
11 0 Tnnx Cnnc
12 0 Tnnx Cnnc
13 13 Tnnx Cnnc
14 0 Tnnc Cnnc
15 0 Tnnc Cnnc
16 0 Tnnc Cnnc
17 12 Tnnc Cnnc
18 13 Tnnc Cnnc
19 0 Tnnx Cnnc
20 11 Tnnx Cnnc
21 0 Tnnx Cnnc
22 5 Tnnx Cnnc
end 23
";

/// A line clear is cancelled, first with the wrong turn, then with the stop
/// control reversed after the code was sent.
#[rustfmt::skip]
const TRAIN_CANCELLED: &[u8] = &[
    1,
    0, 0, 0,
    1, 0, 1,
    2, 0, 0, 0, 1, 0,
    3, 0, 1, 1, 2,
    0, 0, 0,
    1, 0, 1,
    2, 0, 0, 0, 4, 0,
    3, 0, 1, 1, 2,
    5, 0, 0, 1,
    3, 0, 1, 1, 1,
    5, 0, 0, 0,
    3, 0, 1, 1, 1,
    5, 0, 0, 1,
];

const TRAIN_CANCELLED_REGISTER: &str = "\
sections 1
0 0 Cnnc Cnnc
1 0 Cnnc Cnnc
2 0 Cnnc Cnnc
3 0 Gnnc Cnnc
4 0 Gnnc Cnnc
5 0 Gnnc Cnnc
6 0 Gnnc Cnnc
7 9 Gnnc Cnnc
8 0 Gfnc Cnnc
9 10 Gfnc Cnnc
10 0 Gnnc Cnnc
11 0 Cnnc Cnnc
12 8 Cnnc Cnnc
end 13
";

/// A trolley is cancelled with the wrong turn, then while it is on its way, and
/// at last when it is back.
#[rustfmt::skip]
const TROLLEY_CANCELLED: &[u8] = &[
    1,
    0, 0, 0,
    1, 0, 1,
    2, 0, 0, 0, 6, 0,
    3, 0, 1, 1, 1,
    0, 0, 0,
    1, 0, 1,
    2, 0, 0, 0, 4, 0,
    3, 0, 1, 1, 1,
    9, 0, 0,
    3, 0, 1, 1, 2,
    10, 0, 0, 1,
    10, 0, 0, 0,
    3, 0, 1, 1, 2,
    9, 0, 0,
];

const TROLLEY_CANCELLED_REGISTER: &str = "\
sections 1
0 0 Cnnc Cnnc
1 0 Cnnc Cnnc
2 0 Cnnc Cnnc
3 0 Tnnc Cnnc
4 0 Tnnc Cnnc
5 0 Tnnc Cnnc
6 0 Tnnc Cnnc
7 9 Tnnc Cnnc
8 0 Tnnc Cnnc
9 8 Tnnc Cnnc
10 0 Tnnc Cnnc
11 8 Tnnc Cnnc
12 0 Cnnc Cnnc
13 8 Cnnc Cnnc
end 14
";

/// A train passes at on, then axles leave where there are none: both lines are
/// suspended, cleared and resumed.
#[rustfmt::skip]
const BOTH_SUSPENDED: &[u8] = &[
    1,
    7, 0, 0, 5,
    13, 0, 0, 0,
    8, 0, 1, 5,
    8, 0, 0, 5,
    13, 0, 0, 0,
    13, 0, 0, 0,
    13, 0, 0, 1,
    13, 0, 0, 1,
    13, 0, 1, 0,
    12, 0, 1, 1,
    12, 0, 1, 0,
    13, 0, 1, 0,
    13, 0, 1, 1,
];

const BOTH_SUSPENDED_REGISTER: &str = "\
sections 1
0 90 Cnno Cnnc
1 11 Cnno Cnnc
2 91 Cnno Cnnx
3 91 Cnnc Cnnx
4 0 Cnnc Cnnx
5 13 Cnnc Cnnx
6 0 Cnnc Cnnx
7 13 Cnnc Cnnx
8 11 Cnnc Cnnx
9 0 Cnnc Cnnx
10 0 Cnnc Cnnc
11 0 Cnnc Cnnc
12 0 Cnnc Cnnc
end 13
";

/// A thousand axles are counted, one more is not; they are off again when a
/// thousand have left, but only a reset takes the failure away.
#[rustfmt::skip]
const FULL_LINE: &[u8] = &[
    1,
    7, 0, 0, 129, 122,
    7, 0, 0, 129, 122,
    7, 0, 0, 129, 122,
    7, 0, 0, 129, 122,
    7, 0, 0, 1,
    8, 0, 0, 129, 122,
    8, 0, 0, 129, 122,
    8, 0, 0, 129, 122,
    8, 0, 0, 129, 122,
    12, 0, 0, 1,
    12, 0, 0, 0,
    7, 0, 0, 1,
];

const FULL_LINE_REGISTER: &str = "\
sections 1
0 90 Cnno Cnnc
1 90 Cnno Cnnc
2 90 Cnno Cnnc
3 90 Cnno Cnnc
4 90 Cnnx Cnnc
5 91 Cnnx Cnnc
6 91 Cnnx Cnnc
7 91 Cnnx Cnnc
8 91 Cnnx Cnnc
9 0 Cnnx Cnnc
10 0 Cnnc Cnnc
11 90 Cnno Cnnc
end 12
";

/// A signal that is off goes on by what happens on the other line. Nothing
/// takes it off again, and the resumption withdraws the line clear.
#[rustfmt::skip]
const RESUMED_LINE_CLEAR: &[u8] = &[
    1,
    0, 0, 0,
    1, 0, 1,
    2, 0, 0, 0, 1, 0,
    3, 0, 1, 1, 2,
    5, 0, 0, 1,
    8, 0, 1, 1,
    13, 0, 0, 0,
    5, 0, 0, 1,
    5, 0, 0, 0,
    13, 0, 0, 1,
    5, 0, 0, 1,
    13, 0, 0, 1,
    13, 0, 0, 0,
    5, 0, 0, 1,
    0, 0, 0,
    1, 0, 1,
];

const RESUMED_LINE_CLEAR_REGISTER: &str = "\
sections 1
0 0 Cnnc Cnnc
1 0 Cnnc Cnnc
2 0 Cnnc Cnnc
3 0 Gnnc Cnnc
4 0 Gfnc Cnnc
5 91 Gnnc Cnnx
6 10 Gnnc Cnnx
7 7 Gnnc Cnnx
8 0 Gnnc Cnnx
9 0 Gnnc Cnnx
10 7 Gnnc Cnnx
11 13 Gnnc Cnnx
12 0 Cnnc Cnnx
13 8 Cnnc Cnnx
14 0 Cnnc Cnnx
15 0 Cnnc Cnnx
end 16
";

/// Blocking back, removed from the wrong end and with the wrong turn first.
#[rustfmt::skip]
const BLOCKED_BACK: &[u8] = &[
    1,
    0, 0, 1,
    1, 0, 0,
    2, 0, 0, 1, 8, 0,
    3, 0, 0, 1, 0,
    0, 0, 0,
    1, 0, 1,
    2, 0, 0, 0, 5, 0,
    4, 0, 1,
    0, 0, 1,
    1, 0, 0,
    2, 0, 0, 1, 5, 0,
    2, 0, 0, 1, 5, 2,
    3, 0, 0, 0, 0,
    11, 0, 0,
    3, 0, 0, 1, 0,
    14,
];

const BLOCKED_BACK_REGISTER: &str = "\
sections 1
0 0 Cnnc Cnnc
1 0 Cnnc Cnnc
2 0 Cnnc Cnnc
3 0 Tnnc Cnnc
4 0 Tnnc Cnnc
5 0 Tnnc Cnnc
6 8 Tnnc Cnnc
7 0 Tnnc Cnnc
8 0 Tnnc Cnnc
9 0 Tnnc Cnnc
10 9 Tnnc Cnnc
11 0 Cnnc Cnnc
12 9 Cnnc Cnnc
13 0 Cnnx Cnnc
14 0 Cnnx Cnnc
stop 1 at 65
";

/// Blocking forward. The detector fails before its end is acknowledged.
#[rustfmt::skip]
const BLOCKED_FORWARD: &[u8] = &[
    1,
    0, 0, 0,
    1, 0, 1,
    2, 0, 0, 0, 7, 0,
    3, 0, 1, 1, 1,
    0, 0, 0,
    1, 0, 1,
    2, 0, 0, 0, 5, 0,
    11, 0, 0,
    3, 0, 1, 1, 2,
    3, 0, 1, 1, 0,
    3, 0, 1, 0, 0,
    12, 0, 0, 0,
    12, 0, 0, 1,
    14,
];

const BLOCKED_FORWARD_REGISTER: &str = "\
sections 1
0 0 Cnnc Cnnc
1 0 Cnnc Cnnc
2 0 Cnnc Cnnc
3 0 Tnnc Cnnc
4 0 Tnnc Cnnc
5 0 Tnnc Cnnc
6 0 Tnnc Cnnc
7 0 Tnnx Cnnc
8 11 Tnnx Cnnc
9 9 Tnnx Cnnc
10 9 Tnnx Cnnc
11 0 Tnnx Cnnc
12 0 Tnnc Cnnc
stop 1 at 57
";

/// The bell out of turn, codes from the wrong station and with the wrong turn,
/// consent withheld, a section that is not there, and a bad track in it.
#[rustfmt::skip]
const BELL: &[u8] = &[
    2,
    0, 2, 0,
    0, 1, 0,
    0, 1, 1,
    1, 1, 0,
    1, 1, 1,
    2, 1, 0, 1, 1, 0,
    2, 1, 0, 0, 3, 2,
    2, 1, 1, 0, 1, 0,
    2, 1, 0, 0, 1, 1,
    2, 1, 0, 0, 1, 0,
    3, 1, 0, 1, 2,
    3, 1, 1, 0, 2,
    3, 1, 1, 0, 0,
    14,
];

const BELL_REGISTER: &str = "\
sections 2
0 4 ---- ----
1 0 Cnnc Cnnc
2 5 Cnnc Cnnc
3 5 Cnnc Cnnc
4 0 Cnnc Cnnc
5 5 Cnnc Cnnc
6 6 Cnnc Cnnc
7 6 Cnnc Cnnc
8 9 Cnnc Cnnc
9 0 Cnnc Cnnc
10 5 Cnnc Cnnc
11 9 Cnnc Cnnc
12 0 Cnnc Cnnc
stop 1 at 62
";
