//! Sheets whose listings were worked out by hand.

use super::Sample;

const FAMILY: &str = "worked out by hand";

pub fn samples() -> Vec<Sample> {
    let faults = FAULTS.iter().copied();
    let listings = LISTINGS.iter().copied();
    faults.chain(listings).map(sample).collect()
}

fn sample((sheet, listing): (&[u8], &str)) -> Sample {
    Sample { family: FAMILY, sheet: sheet.to_vec(), expected: Some(listing.to_string()) }
}

/// Sheets with nothing in them but a fault.
const FAULTS: &[(&[u8], &str)] = &[
    (&[], "stop 1 at 0\n"),
    (&[0], "stop 4 at 0\n"),
    (&[9], "stop 4 at 0\n"),
    (&[127], "stop 4 at 0\n"),
    (&[128], "stop 2 at 0\n"),
    (&[128, 1], "stop 2 at 0\n"),
    (&[129], "stop 1 at 0\n"),
    (&[129, 0], "stop 4 at 0\n"),
    (&[129, 128], "stop 1 at 0\n"),
    (&[131, 255, 127], "stop 4 at 0\n"),
    (&[132, 128], "stop 1 at 0\n"),
    (&[132, 128, 0], "stop 2 at 2\n"),
    (&[132, 128, 128], "stop 2 at 0\n"),
    (&[255, 255, 127], "stop 2 at 2\n"),
    (&[255, 255, 255], "stop 2 at 0\n"),
    (&[9, 0, 0, 0], "stop 4 at 0\n"),
    (&[0, 15], "stop 4 at 0\n"),
];

const LISTINGS: &[(&[u8], &str)] = &[
    (&[1], "sections 1\nend 0\n"),
    (&[8], "sections 8\nend 0\n"),
    (&[1, 0], "sections 1\nstop 1 at 2\n"),
    (&[1, 0, 0], "sections 1\nstop 1 at 3\n"),
    (&[1, 0, 129], "sections 1\nstop 1 at 2\n"),
    (&[1, 0, 128], "sections 1\nstop 2 at 2\n"),
    (&[1, 0, 132, 128, 0, 0], "sections 1\nstop 2 at 4\n"),
    (&[1, 0, 0, 2], "sections 1\nstop 3 at 3\n"),
    (&[1, 0, 0, 129, 0], "sections 1\nstop 3 at 3\n"),
    (&[1, 14], "sections 1\nstop 1 at 2\n"),
    (&[1, 15], "sections 1\nstop 3 at 1\n"),
    (&[1, 15, 128], "sections 1\nstop 3 at 1\n"),
    (&[1, 0, 65, 1], "sections 1\n0 at 1: section 65 call station 1\nend 1\n"),
    (&[1, 0, 131, 255, 127, 1], "sections 1\n0 at 1: section 65535 call station 1\nend 1\n"),
    (&[1, 7, 0, 0, 0], "sections 1\nstop 3 at 4\n"),
    (&[1, 7, 0, 0, 1], "sections 1\n0 at 1: section 0 enters line up axles 1\nend 1\n"),
    (&[1, 7, 0, 0, 129, 122], "sections 1\n0 at 1: section 0 enters line up axles 250\nend 1\n"),
    (&[1, 7, 0, 0, 129, 123], "sections 1\nstop 3 at 4\n"),
    (&[1, 8, 0, 1, 129, 122], "sections 1\n0 at 1: section 0 leave line down axles 250\nend 1\n"),
    (&[1, 8, 0, 1, 129, 123], "sections 1\nstop 3 at 4\n"),
    (&[1, 14, 0, 0, 6], "sections 1\n0 at 1: section 0 roll line up track 6\nend 1\n"),
    (&[1, 14, 9, 0, 7], "sections 1\nstop 3 at 4\n"),
    (&[1, 2, 0, 0, 0, 0, 0], "sections 1\nstop 3 at 5\n"),
    (&[1, 2, 0, 0, 0, 9, 3], "sections 1\nstop 3 at 5\n"),
    (&[1, 2, 0, 0, 0, 8, 3], "sections 1\nstop 3 at 6\n"),
    (&[1, 4, 0, 1, 15], "sections 1\n0 at 1: section 0 error station 1\nstop 3 at 4\n"),
    (&[1, 4, 0, 1, 128], "sections 1\n0 at 1: section 0 error station 1\nstop 2 at 4\n"),
    (&[1, 4, 0, 1, 129], "sections 1\n0 at 1: section 0 error station 1\nstop 1 at 4\n"),
    (&EVERY_KIND, EVERY_KIND_LISTING),
    (&EVERY_CODE, EVERY_CODE_LISTING),
];

#[rustfmt::skip]
const EVERY_KIND: [u8; 62] = [
    2,
    0, 0, 0,
    1, 0, 1,
    2, 0, 0, 0, 1, 0,
    3, 0, 1, 1, 2,
    4, 1, 0,
    5, 0, 0, 1,
    6, 0, 1, 0,
    7, 0, 0, 40,
    8, 0, 0, 129, 122,
    9, 1, 1,
    10, 1, 1, 1,
    11, 0, 1,
    12, 0, 1, 0,
    13, 131, 255, 127, 0, 1,
    14, 7, 1, 6,
];

const EVERY_KIND_LISTING: &str = "\
sections 2
0 at 1: section 0 call station 0
1 at 4: section 0 answer station 1
2 at 7: section 0 send line up station 0 code is-line-clear turn none
3 at 13: section 0 acknowledge station 1 consent 1 turn right
4 at 18: section 1 error station 0
5 at 21: section 0 stop-control line up position reversed
6 at 25: section 0 home-control line down position normal
7 at 29: section 0 enters line up axles 40
8 at 33: section 0 leave line up axles 250
9 at 38: section 1 trolley-starts line down
10 at 41: section 1 trolley-ends line down place returned
11 at 45: section 0 fails line down
12 at 48: section 0 reset line down station 0
13 at 52: section 65535 resume line up station 1
14 at 58: section 7 roll line down track 6
end 15
";

#[rustfmt::skip]
const EVERY_CODE: [u8; 59] = [
    8,
    2, 0, 0, 0, 1, 0,
    2, 1, 0, 0, 2, 1,
    2, 2, 1, 0, 3, 2,
    2, 3, 1, 0, 4, 0,
    2, 4, 1, 1, 5, 1,
    2, 5, 1, 1, 6, 2,
    2, 6, 0, 1, 7, 0,
    2, 7, 0, 1, 8, 1,
    10, 8, 0, 0,
    6, 129, 0, 0, 1,
    14,
];

const EVERY_CODE_LISTING: &str = "\
sections 8
0 at 1: section 0 send line up station 0 code is-line-clear turn none
1 at 7: section 1 send line up station 0 code train-entering turn left
2 at 13: section 2 send line down station 0 code train-out turn right
3 at 19: section 3 send line down station 0 code cancel-last turn none
4 at 25: section 4 send line down station 1 code obstruction-removed turn left
5 at 31: section 5 send line down station 1 code trolley turn right
6 at 37: section 6 send line up station 1 code block-forward turn none
7 at 43: section 7 send line up station 1 code block-back turn left
8 at 49: section 8 trolley-ends line up place arrived
9 at 53: section 128 home-control line up position reversed
stop 1 at 59
";
