//! The listing of a settled book.

use crate::kinds::Kind;
use crate::settling::Board;
use crate::text::Sizes;

/// The first line of every listing, with its line feed.
pub const HEADER: &str = "node concept label\n";

/// One line of a listing, with its line feed.
pub fn line(node: usize, concept: usize, number: u64) -> String {
    format!("{node} {concept} {number}\n")
}

/// The listing of the memberships on a board: nodes rising, and for each node
/// the concepts from 1 rising, where the label is not none.
pub fn list<K: Kind>(sizes: &Sizes, board: &Board<K>) -> String {
    let mut listing = String::from(HEADER);
    for node in 0..sizes.nodes() {
        for concept in 1..sizes.concepts {
            let label = board.membership(node, concept);
            if label != K::NONE {
                listing.push_str(&line(node, concept, K::number(label)));
            }
        }
    }
    listing
}
