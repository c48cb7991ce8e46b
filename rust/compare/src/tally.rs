//! Counts comparisons and prints the first differences.

use std::fmt::Debug;

/// How many differences are printed.
const SHOWN: u64 = 20;
/// How much of a long input or result is printed.
const WIDTH: usize = 1200;

#[derive(Default)]
pub struct Tally {
    pub compared: u64,
    pub differ: u64,
}

impl Tally {
    /// Counts one comparison; `case` describes the input where the two results differ.
    pub fn note<T: PartialEq + Debug>(
        &mut self,
        left: &T,
        right: &T,
        case: impl FnOnce() -> String,
    ) {
        self.compared += 1;
        if left != right {
            self.differ += 1;
            if self.differ <= SHOWN {
                show(&case(), &format!("{left:?}"), &format!("{right:?}"));
            }
        }
    }

    /// The last line, and whether all was the same.
    pub fn finish(&self) -> bool {
        println!("compared {}, {} differ", self.compared, self.differ);
        self.differ == 0
    }
}

/// Prints an input and two results, long ones from shortly before they differ.
fn show(case: &str, left: &str, right: &str) {
    let same = left.chars().zip(right.chars()).take_while(|(a, b)| a == b).count();
    let part = |text: &str, from| text.chars().skip(from).take(WIDTH).collect::<String>();
    let from = if left.len().max(right.len()) > WIDTH { same.saturating_sub(100) } else { 0 };
    println!("{}", part(case, 0));
    println!("  first  {}\n  second {}", part(left, from), part(right, from));
}
