//! Each form of an event in words.

use super::journal;
use crate::run::{event, Happening};
use crate::site::{Sites, Step, ACK, MOVE_P, START, YES};
use Happening::{Stop, StopDuring};

fn deliver(kind: u8, from: u8) -> Step {
    Step::Deliver { kind, from, vote: (kind == START).then_some(true) }
}

#[test]
fn every_kind_of_event() {
    let step = |site, step| (site, Happening::Step(step));
    let events = [
        step(1, Step::Begin(true)),
        step(2, deliver(START, 1)),
        (3, StopDuring(deliver(START, 1), Sites::from([1, 2]))),
        step(1, deliver(YES, 2)),
        step(1, deliver(YES, 3)),
        step(1, Step::Conclude),
        step(1, Step::Notice(3)),
        step(2, deliver(MOVE_P, 1)),
        (1, StopDuring(deliver(ACK, 2), Sites::new())),
        step(2, Step::TakeOver),
        step(2, Step::TakeOver),
        step(2, Step::Notice(1)),
        step(2, Step::TakeOver),
        (2, Stop),
    ];
    let text = "\
sites 3
begin 1 yes                                       # taken wqq
deliver 2 start from 1 yes                        # taken wwq
stop 3 during deliver start from 1 yes leaving 1 2  # taken wwQ
deliver 1 yes from 2                              # taken wwQ
deliver 1 yes from 3                              # taken wwQ
conclude 1                                        # taken pwQ
notice 1 of 3                                     # taken pwQ
deliver 2 move-p from 1                           # taken ppQ
stop 1 during deliver ack from 2 leaving none     # taken PpQ
repeat 2 take over 2                              # refused 5 PpQ
notice 2 of 1                                     # taken PpQ
take over 2                                       # taken PpQ
stop 2                                            # taken PPQ
";
    assert_eq!(journal(3, event, &events), text);
}
