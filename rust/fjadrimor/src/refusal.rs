//! Why a call is refused.

use std::fmt;

/// Says each ground once: its name (include/fjadrimor.h has the same), the documents' number, and
/// what it means.
macro_rules! grounds {
    ($($name:ident = $number:literal, $sentence:literal;)*) => {
        /// A ground for refusal, with the number that document 01 gives it, or document 02 (32).
        ///
        /// A refused call leaves the site, the run or the journal as it was. Of the records of a
        /// [`Run::journal`](crate::Run::journal), those before the refused one count.
        #[derive(Clone, Copy, Debug, PartialEq, Eq, PartialOrd, Ord, Hash)]
        #[repr(u8)]
        pub enum Refusal {
            $(#[doc = $sentence] $name = $number,)*
        }

        impl Refusal {
            /// Every ground, ascending.
            pub const ALL: &'static [Refusal] = &[$(Refusal::$name,)*];

            /// What it means, in a sentence.
            pub fn sentence(self) -> &'static str {
                match self {
                    $(Refusal::$name => $sentence,)*
                }
            }
        }
    };
}

grounds! {
    NotSound = 1, "the run or a site is not sound, or the number of sites is not 2 to 8";
    WrongNames = 2, "no such site, a notice about itself, or a message that never goes that way";
    ActorStopped = 3, "the acting site has stopped";
    NotThere = 4, "no such message is outstanding, or the noticed site runs or is known to have stopped";
    NotAllowed = 5, "begin, take over or conclude is not allowed here";
    Conflict = 6, "the message conflicts with the site's state";
    TooShort = 10, "the record is not complete";
    WrongLength = 11, "the record's length is not 7";
    WrongVersion = 12, "the record's version is not 1";
    UnknownK = 13, "the kind of event is unknown";
    WrongField = 14, "a field is outside its range";
    NoRoom = 15, "there is too little room for what is to be written";
    FewWords = 20, "fewer than 4,096 words are lent";
    SheetSize = 21, "the sheet's length is missing, 0, or not the length of what follows";
    SheetVersion = 22, "the sheet's version is not 1";
    SheetCounts = 23, "the number of sites is not 2 to 4, or a site's number of states is not 1 to 8";
    SheetLength = 24, "the sheet has more or fewer bytes than its counts give, or over 64 transitions";
    SheetRange = 25, "a mark, site, state or vote is outside its range";
    ReadsNothing = 26, "a transition reads nothing";
    ReadTwice = 27, "a message is read by two sites";
    NotFinal = 28, "a transition leads from an abort or commit state to a state of another mark";
    Cycle = 29, "a site's diagram has a cycle, whatever the messages allow";
    ManyStates = 30, "more than 4,096 global states are reachable";
    Clash = 31, "a transition can write a message that is still outstanding after its reading";
    SheetNoRoom = 32, "there is too little room for the whole record of the sheet";
}

impl Refusal {
    /// The documents' number.
    pub fn number(self) -> u8 {
        self as u8
    }

    /// The ground with this number, if there is one.
    pub fn numbered(number: u8) -> Option<Refusal> {
        Refusal::ALL.iter().copied().find(|refusal| refusal.number() == number)
    }

    /// What a call of the library returned: 0, or the ground on which it refused.
    pub(crate) fn heed(returned: u8) -> Result<(), Refusal> {
        match returned {
            0 => Ok(()),
            ground => {
                Err(Refusal::numbered(ground).expect("the library refuses with known numbers"))
            }
        }
    }
}

impl fmt::Display for Refusal {
    fn fmt(&self, out: &mut fmt::Formatter) -> fmt::Result {
        write!(out, "refused {}: {}", self.number(), self.sentence())
    }
}

impl std::error::Error for Refusal {}
