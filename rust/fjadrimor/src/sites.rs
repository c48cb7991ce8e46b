//! Sets of sites.

use std::fmt;

/// A set of sites from 1 to 8. As a byte, its mask, site j has weight 2^(j-1).
#[derive(Clone, Copy, Default, PartialEq, Eq, Hash)]
pub struct Sites(u8);

impl Sites {
    /// The set with this mask.
    pub fn from_mask(mask: u8) -> Sites {
        Sites(mask)
    }

    /// The set's mask.
    pub fn mask(self) -> u8 {
        self.0
    }

    /// Is this site in the set? A number that is not 1 to 8 is in none.
    pub fn contains(self, site: u8) -> bool {
        self.0 & weight(site) != 0
    }

    /// The number of sites in the set.
    pub fn len(self) -> usize {
        self.0.count_ones() as usize
    }

    /// Has the set no site?
    pub fn is_empty(self) -> bool {
        self.0 == 0
    }

    /// Its sites, ascending.
    pub fn iter(self) -> impl Iterator<Item = u8> {
        (1..=8).filter(move |&site| self.contains(site))
    }
}

/// The weight of a site in a mask; 0 for a number that is not 1 to 8.
fn weight(site: u8) -> u8 {
    match site {
        1..=8 => 1 << (site - 1),
        _ => 0,
    }
}

/// The site that an answer's byte names; 0 names none.
pub(crate) fn named(byte: u8) -> Option<u8> {
    Some(byte).filter(|site| *site != 0)
}

/// Numbers that are not 1 to 8 are left out.
impl FromIterator<u8> for Sites {
    fn from_iter<I: IntoIterator<Item = u8>>(sites: I) -> Sites {
        Sites(sites.into_iter().fold(0, |mask, site| mask | weight(site)))
    }
}

impl fmt::Debug for Sites {
    fn fmt(&self, out: &mut fmt::Formatter) -> fmt::Result {
        out.debug_set().entries(self.iter()).finish()
    }
}
