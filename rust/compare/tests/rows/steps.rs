//! "Site and messages": begin, notice, take over and conclude, by the state of the site (q, w, p, a,
//! c) and by what it has heard; and the sites awaited, their number and the lowest.

use super::words::*;

const NEVER: &str = "5 | 5 | 5 | 5 | 5";

/// "Begin with a vote, site 1 in q: yes writes Start to all, goes to w; no writes Abort to all, goes
/// to a." "All" leaves out who is known stopped; whoever has been heard in q is not awaited.
#[test]
fn begin() {
    let first = [4, 1, Q, 1, 0, 0, 0, 0];
    let knowing = [4, 1, Q, 1, 0b0100, 0b0010, 0, 0];
    let alone = [4, 1, Q, 1, 0b1110, 0, 0, 0];
    hold(&[
        (first, [BEGIN, 0, 0, AYE], "w1 Start>2,3,4 awaits 3, ring 2 | 5 | 5 | 5 | 5"),
        (first, [BEGIN, 0, 0, NAY], "a1 Abort>2,3,4 | 5 | 5 | 5 | 5"),
        (knowing, [BEGIN, 0, 0, AYE], "w1 Start>2,4 awaits 1, ring 4 | 5 | 5 | 5 | 5"),
        (knowing, [BEGIN, 0, 0, NAY], "a1 Abort>2,4 | 5 | 5 | 5 | 5"),
        (alone, [BEGIN, 0, 0, AYE], "w1 | 5 | 5 | 5 | 5"),
        (alone, [BEGIN, 0, 0, NAY], "a1 | 5 | 5 | 5 | 5"),
    ]);
    for (number, leader) in [(2, 1), (2, 2), (4, 1), (4, 3), (4, 4)] {
        let other = [4, number, Q, leader, 0b0001, 0, 0, 0];
        hold(&[(other, [BEGIN, 0, 0, AYE], NEVER), (other, [BEGIN, 0, 0, NAY], NEVER)]);
    }
}

/// "Notice that a site stopped: recorded; passed over if known." In every state, whoever leads; no
/// leader changes and nothing is written.
#[test]
fn notice() {
    let [follows, leads] = [2, 3].map(|leader| [4, 3, Q, leader, 0b0001, 0, 0, 0]);
    hold(&[
        (
            follows,
            [NOTICE, 2, 0, 0],
            "q2 known=1,2 | w2 known=1,2 | p2 known=1,2 | a2 known=1,2 | c2 known=1,2",
        ),
        (follows, [NOTICE, 1, 0, 0], "passed q2 | passed w2 | passed p2 | passed a2 | passed c2"),
        (
            leads,
            [NOTICE, 4, 0, 0],
            "q3 known=1,4 | w3 known=1,4 awaits 1, ring 2 | p3 known=1,4 awaits 1, ring 2 | \
             a3 known=1,4 | c3 known=1,4",
        ),
        (
            leads,
            [NOTICE, 1, 0, 0],
            "passed q3 | passed w3 awaits 2, ring 2 | passed p3 awaits 2, ring 2 | passed a3 | \
             passed c3",
        ),
    ]);
}

/// "Take over, when following a lower site and all lower ones are known stopped: it leads,
/// acknowledgements cleared. In q it goes to a. Then to all: Abort in a, Commit in c, Move-w in w,
/// Move-p in p." Only the acknowledgements are cleared.
#[test]
fn take_over() {
    let to_all =
        "a3 Abort>4,5 | w3 Move-w>4,5 awaits 2, ring 4 | p3 Move-p>4,5 awaits 2, ring 4 | \
                  a3 Abort>4,5 | c3 Commit>4,5";
    let to_4 = "a3 Abort>4 | w3 Move-w>4 awaits 1, ring 4 | p3 Move-p>4 awaits 1, ring 4 | \
                a3 Abort>4 | c3 Commit>4";
    let cleared = "a2 acked=none Abort>3,4 | w2 acked=none Move-w>3,4 awaits 2, ring 3 | \
                   p2 acked=none Move-p>3,4 awaits 2, ring 3 | a2 acked=none Abort>3,4 | \
                   c2 acked=none Commit>3,4";
    hold(&[
        ([5, 3, Q, 1, 0b00011, 0, 0, 0], [TAKE_OVER, 0, 0, 0], to_all),
        ([5, 3, Q, 2, 0b00011, 0b01000, 0b10000, 0], [TAKE_OVER, 0, 0, 0], to_all),
        ([5, 3, Q, 2, 0b10011, 0, 0, 0], [TAKE_OVER, 0, 0, 0], to_4),
        ([2, 2, Q, 1, 0b01, 0, 0, 0], [TAKE_OVER, 0, 0, 0], "a2 | w2 | p2 | a2 | c2"),
        ([4, 2, Q, 1, 0b0001, 0b0101, 0b1000, 0b1100], [TAKE_OVER, 0, 0, 0], cleared),
    ]);
}

/// A site that leads, and one that does not know every lower site stopped, does not take over.
#[test]
fn take_over_refused() {
    let sites: [Site; 7] = [
        [5, 3, Q, 1, 0b00000, 0, 0, 0],
        [5, 3, Q, 1, 0b00001, 0, 0, 0],
        [5, 3, Q, 1, 0b00010, 0, 0, 0],
        [5, 3, Q, 2, 0b11010, 0, 0, 0],
        [5, 3, Q, 2, 0b11001, 0, 0, 0],
        [5, 3, Q, 3, 0b00011, 0, 0, 0],
        [5, 1, Q, 1, 0b11110, 0, 0, 0],
    ];
    hold(&sites.map(|site| (site, [TAKE_OVER, 0, 0, 0], NEVER)));
}

/// "In w or p: when every other site has acknowledged or is known stopped, w writes Abort and goes
/// to a, p writes Commit and goes to c." By who is known stopped and who has acknowledged.
#[test]
fn conclude_by_the_acknowledgements() {
    let rows = [
        (0b0000, 0b1101, "5 | a2 Abort>1,3,4 | c2 Commit>1,3,4 | 5 | 5"),
        (0b0000, 0b1100, NEVER),
        (0b0001, 0b0000, NEVER),
        (0b0001, 0b0100, NEVER),
        (0b0001, 0b1000, NEVER),
        (0b0001, 0b1100, "5 | a2 Abort>3,4 | c2 Commit>3,4 | 5 | 5"),
        (0b0101, 0b0100, NEVER),
        (0b0101, 0b1000, "5 | a2 Abort>4 | c2 Commit>4 | 5 | 5"),
        (0b0101, 0b1100, "5 | a2 Abort>4 | c2 Commit>4 | 5 | 5"),
        (0b1101, 0b0000, "5 | a2 | c2 | 5 | 5"),
    ];
    let votes = [(0b0000, 0b0000), (0b0101, 0b1000)];
    for ((known, acked, expected), (yes, no)) in
        rows.iter().flat_map(|row| votes.map(|votes| (row, votes)))
    {
        let leader = [4, 2, Q, 2, *known, yes, no, *acked];
        hold(&[(leader, [CONCLUDE, 0, 0, 0], *expected)]);
    }
}

/// Site 1 in p goes by the acknowledgements too, whatever votes it has heard.
#[test]
fn conclude_at_site_1_in_p() {
    let rows = [
        (0b000, 0b110, "c1 Commit>2,3"),
        (0b000, 0b010, "5"),
        (0b000, 0b000, "5"),
        (0b010, 0b100, "c1 Commit>3"),
        (0b010, 0b010, "5"),
        (0b110, 0b000, "c1"),
    ];
    for (program, (known, acked, expected)) in each(SITES, &rows) {
        for (yes, no) in [(0b000, 0b000), (0b110, 0b000), (0b000, 0b110)] {
            let site = [3, 1, P, 1, *known, yes, no, *acked];
            assert_eq!(step(program, site, [CONCLUDE, 0, 0, 0]), *expected, "{site:?}");
        }
    }
}

/// "Conclude, for a leader." In q, a and c it has no rule, and whoever follows another has none.
#[test]
fn conclude_refused() {
    let answered: [Site; 4] = [
        [3, 2, Q, 1, 0b001, 0, 0, 0b100],
        [3, 3, Q, 1, 0b011, 0, 0, 0b011],
        [3, 3, Q, 2, 0b011, 0, 0, 0b011],
        [3, 3, Q, 2, 0b000, 0b011, 0, 0b011],
    ];
    hold(&answered.map(|site| (site, [CONCLUDE, 0, 0, 0], NEVER)));
    for state in [Q, A, C] {
        let rows = [[3, 1, state, 1, 0b110, 0b110, 0, 0b110], [3, 2, state, 2, 0b101, 0, 0, 0b101]];
        for (program, site) in each(SITES, &rows) {
            assert_eq!(step(program, *site, [CONCLUDE, 0, 0, 0]), "5", "{site:?}");
        }
    }
}

/// Whether site 1 knows another to have stopped, has heard its Yes, and its No.
const HEARD: [[bool; 3]; 8] = [
    [false, false, false],
    [false, true, false],
    [false, false, true],
    [false, true, true],
    [true, false, false],
    [true, true, false],
    [true, false, true],
    [true, true, true],
];

/// "Site 1 in w: if a No is heard, or a known stopped site has no Yes heard, Abort to all and a; else
/// if all others said Yes, Move-p to all and p; else not yet." Site 2 is as the line says, in the
/// order of HEARD, and site 3 as the column does: the state afterwards, and the receivers.
#[test]
fn conclude_by_the_votes() {
    let lines = [
        ["5", "5", "a23", "a23", "a2", "5", "a2", "a2"],
        ["5", "p23", "a23", "a23", "a2", "p2", "a2", "a2"],
        ["a23", "a23", "a23", "a23", "a2", "a2", "a2", "a2"],
        ["a23", "a23", "a23", "a23", "a2", "a2", "a2", "a2"],
        ["a3", "a3", "a3", "a3", "a", "a", "a", "a"],
        ["5", "p3", "a3", "a3", "a", "p", "a", "a"],
        ["a3", "a3", "a3", "a3", "a", "a", "a", "a"],
        ["a3", "a3", "a3", "a3", "a", "a", "a", "a"],
    ];
    let in_words = |cell: &str| match cell {
        "5" => "5",
        "a" => "a1",
        "a2" => "a1 Abort>2",
        "a3" => "a1 Abort>3",
        "a23" => "a1 Abort>2,3",
        "p" => "p1",
        "p2" => "p1 Move-p>2 awaits 1, ring 2",
        "p3" => "p1 Move-p>3 awaits 1, ring 3",
        "p23" => "p1 Move-p>2,3 awaits 2, ring 2",
        _ => unreachable!("{cell}"),
    };
    for (two, line) in HEARD.iter().zip(lines) {
        for (three, cell) in HEARD.iter().zip(line) {
            let set = |place: usize| u8::from(two[place]) * 2 + u8::from(three[place]) * 4;
            let site = [3, 1, W, 1, set(0), set(1), set(2), 0];
            for program in SITES {
                let found = step(program, site, [CONCLUDE, 0, 0, 0]);
                assert_eq!(found, in_words(cell), "{site:?}");
            }
        }
    }
}

/// Acknowledgements do not count at site 1 in w.
#[test]
fn conclude_at_site_1_in_w_is_by_votes_alone() {
    let rows = [([3, 1, W, 1, 0, 0b010, 0, 0b110], "5"), ([3, 1, W, 1, 0, 0, 0, 0b110], "5")];
    for (program, (site, expected)) in each(SITES, &rows) {
        assert_eq!(step(program, *site, [CONCLUDE, 0, 0, 0]), *expected, "{site:?}");
    }
}

/// "The number of sites still awaited: for a leader in p, or in w other than site 1, those neither
/// acknowledged nor known stopped; for site 1 in w, those without a vote heard and not known
/// stopped; else 0." 02, Ask 4: "the lowest awaited site besides the number". Seen after a notice
/// that is passed over, which changes nothing.
#[test]
fn awaited() {
    let passed = "passed q1 | passed w1 | passed p1 | passed a1 | passed c1";
    hold(&[
        // 2 is known stopped, 3 has said Yes, 4 No, 5 has acknowledged, of 6 nothing is heard.
        (
            [6, 1, Q, 1, 0b000010, 0b000100, 0b001000, 0b010000],
            [NOTICE, 2, 0, 0],
            "passed q1 | passed w1 awaits 2, ring 5 | passed p1 awaits 3, ring 3 | passed a1 | \
             passed c1",
        ),
        // Who is known stopped and has been heard as well is left out once.
        (
            [6, 1, Q, 1, 0b000110, 0b000110, 0b000100, 0b000010],
            [NOTICE, 2, 0, 0],
            "passed q1 | passed w1 awaits 3, ring 4 | passed p1 awaits 3, ring 4 | passed a1 | \
             passed c1",
        ),
        ([6, 1, Q, 1, 0b111110, 0, 0, 0], [NOTICE, 2, 0, 0], passed),
        (
            [6, 2, Q, 2, 0b000001, 0b000100, 0b001000, 0b010000],
            [NOTICE, 1, 0, 0],
            "passed q2 | passed w2 awaits 3, ring 3 | passed p2 awaits 3, ring 3 | passed a2 | \
             passed c2",
        ),
        // The lowest may stand below the leader, where it is not known stopped, or be the last of all.
        (
            [8, 8, Q, 8, 0b00000010, 0, 0, 0],
            [NOTICE, 2, 0, 0],
            "passed q8 | passed w8 awaits 6, ring 1 | passed p8 awaits 6, ring 1 | passed a8 | \
             passed c8",
        ),
        (
            [8, 6, Q, 6, 0b00011111, 0, 0, 0b01000000],
            [NOTICE, 2, 0, 0],
            "passed q6 | passed w6 awaits 1, ring 8 | passed p6 awaits 1, ring 8 | passed a6 | \
             passed c6",
        ),
        ([6, 2, Q, 1, 0b000001, 0, 0, 0], [NOTICE, 1, 0, 0], passed),
        ([6, 6, Q, 1, 0b000001, 0, 0, 0], [NOTICE, 1, 0, 0], passed),
    ]);
}
