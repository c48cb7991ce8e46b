//! A sentence for each ground of refusal, under the documents' number.

use fjadrimor::Refusal;

/// The sentence of a ground.
pub fn sentence(ground: u8) -> &'static str {
    Refusal::numbered(ground)
        .map_or("a ground that no document names", |refusal| refusal.sentence())
}
