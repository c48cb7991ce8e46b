//! Memory that is lent to a call, so that whatever the call touches beside it shows.

use std::fmt::Debug;

/// How memory is lent. Between canaries, a write beside it shows at once. Alone, it is an allocation
/// of its own, so that a tool that watches memory sees a read beside it too; where it is empty, its
/// address is null.
#[derive(Clone, Copy, Debug, PartialEq, Eq)]
pub enum Way {
    Between,
    Alone,
}

/// An element that can be a canary.
pub trait Element: Copy + PartialEq + Debug {
    const CANARY: Self;
}

impl Element for u8 {
    const CANARY: u8 = 0xC5;
}

impl Element for u64 {
    const CANARY: u64 = 0xC5C5_0123_4567_C5C5;
}

/// The canaries on each side.
const MARGIN: usize = 24;

pub struct Lent<T> {
    whole: Vec<T>,
    margin: usize,
}

impl<T: Element> Lent<T> {
    pub fn new(content: &[T], way: Way) -> Lent<T> {
        match way {
            Way::Between => {
                let canaries = [T::CANARY; MARGIN];
                Lent { whole: [&canaries, content, &canaries].concat(), margin: MARGIN }
            }
            Way::Alone => Lent { whole: content.to_vec(), margin: 0 },
        }
    }

    pub fn length(&self) -> usize {
        self.whole.len() - 2 * self.margin
    }

    pub fn address(&mut self) -> *mut T {
        match self.whole.is_empty() {
            true => std::ptr::null_mut(),
            false => self.whole[self.margin..].as_mut_ptr(),
        }
    }

    /// What the call left. A canary that was touched ends the program.
    pub fn left(self) -> Vec<T> {
        let (before, rest) = self.whole.split_at(self.margin);
        let (content, after) = rest.split_at(rest.len() - self.margin);
        let mut canaries = before.iter().chain(after);
        assert!(canaries.all(|&canary| canary == T::CANARY), "a byte beside the lent ones changed");
        content.to_vec()
    }
}

#[cfg(test)]
mod tests {
    use super::*;

    #[test]
    fn what_is_left_is_the_content() {
        for way in [Way::Between, Way::Alone] {
            let mut lent = Lent::new(&[1u8, 2, 3], way);
            // SAFETY: the last of the three lent bytes.
            unsafe { *lent.address().add(2) = 9 };
            assert_eq!((lent.length(), lent.left()), (3, vec![1, 2, 9]));
        }
    }

    #[test]
    fn an_empty_slice_alone_has_a_null_pointer() {
        assert!(Lent::<u8>::new(&[], Way::Alone).address().is_null());
        assert!(!Lent::<u8>::new(&[], Way::Between).address().is_null());
    }

    #[test]
    #[should_panic(expected = "a byte beside the lent ones changed")]
    fn a_byte_beside_the_lent_ones_shows() {
        let mut lent = Lent::new(&[1u8, 2, 3], Way::Between);
        // SAFETY: the first canary after the three lent bytes.
        unsafe { *lent.address().add(3) = 9 };
        lent.left();
    }
}
