//! Settling a book: rounds over its sentences till nothing changes.

use crate::kinds::Kind;
use crate::text::{Book, Sentence, Sizes};
use std::collections::BTreeMap;

/// The labels of all facts of a book, as far as they are known.
pub struct Board<K: Kind> {
    /// The sizes of the book.
    sizes: Sizes,
    /// The label of each membership: those of node 0 first, concepts rising.
    memberships: Vec<K::Label>,
    /// For each node and role, node 0 first, the labels of the links from the
    /// node along the role that are not none, by the node they lead to.
    links: Vec<BTreeMap<usize, K::Label>>,
    /// How many labels are not none, memberships and links together.
    held: usize,
}

impl<K: Kind> Board<K> {
    /// A board on which every label is none.
    fn blank(sizes: Sizes) -> Self {
        Board {
            sizes,
            memberships: vec![K::NONE; sizes.nodes() * sizes.concepts],
            links: vec![BTreeMap::new(); sizes.nodes() * sizes.roles],
            held: 0,
        }
    }

    /// How many labels are not none, memberships and links together.
    pub fn held(&self) -> usize {
        self.held
    }

    /// The label of the membership of a node in a concept.
    pub fn membership(&self, node: usize, concept: usize) -> K::Label {
        self.memberships[node * self.sizes.concepts + concept]
    }

    /// Where the links from a node along a role are kept.
    fn place_of_links(&self, node: usize, role: usize) -> usize {
        node * self.sizes.roles + role
    }

    /// Adds a label to a membership, and says whether that changed it.
    fn add_membership(&mut self, node: usize, concept: usize, label: K::Label) -> bool {
        let old = self.membership(node, concept);
        let new = K::either(old, label);
        if new == old {
            return false;
        }
        if old == K::NONE {
            self.held += 1;
        }
        self.memberships[node * self.sizes.concepts + concept] = new;
        true
    }

    /// Adds a label to a link, and says whether that changed it.
    fn add_link(&mut self, from: usize, role: usize, to: usize, label: K::Label) -> bool {
        let place = self.place_of_links(from, role);
        let old = self.links[place].get(&to).copied().unwrap_or(K::NONE);
        let new = K::either(old, label);
        if new == old {
            return false;
        }
        if old == K::NONE {
            self.held += 1;
        }
        self.links[place].insert(to, new);
        true
    }

    /// The views on which a node has a link along a role to a member of a concept.
    fn linked_to_member(&self, node: usize, role: usize, concept: usize) -> K::Label {
        let mut label = K::NONE;
        for (&to, &link) in &self.links[self.place_of_links(node, role)] {
            label = K::either(label, K::both(link, self.membership(to, concept)));
        }
        label
    }

    /// Makes every node a member of concept 0, and every concept one of itself.
    fn begin(&mut self) {
        for node in 0..self.sizes.nodes() {
            self.add_membership(node, 0, K::ALL);
        }
        for concept in 0..self.sizes.concepts {
            self.add_membership(concept, concept, K::ALL);
        }
    }

    /// Applies a sentence to every node, and says whether that changed a label.
    fn apply(&mut self, sentence: &Sentence<K::Label>) -> bool {
        let unit = self.sizes.concepts + sentence.first;
        match sentence.form {
            5 => self.add_membership(unit, sentence.third, sentence.label),
            6 => {
                let to = self.sizes.concepts + sentence.third;
                self.add_link(unit, sentence.role, to, sentence.label)
            }
            _ => {
                let mut changed = false;
                for node in 0..self.sizes.nodes() {
                    changed |= self.apply_at(sentence, node);
                }
                changed
            }
        }
    }

    /// Applies a sentence of form 1 to 4 to one node, and says whether that
    /// changed a label.
    fn apply_at(&mut self, sentence: &Sentence<K::Label>, node: usize) -> bool {
        let Sentence { first, role, third, .. } = *sentence;
        let condition = match sentence.form {
            2 => K::both(self.membership(node, first), self.membership(node, sentence.second)),
            4 => self.linked_to_member(node, role, first),
            _ => self.membership(node, first),
        };
        let label = K::both(sentence.label, condition);
        if sentence.form == 3 {
            self.add_link(node, role, third, label)
        } else {
            self.add_membership(node, third, label)
        }
    }
}

/// Settles a book. There is no answer when more labels than the capacity are
/// not none. Labels only ever grow, so the work ends as soon as that is seen.
pub fn settle<K: Kind>(book: &Book<K::Label>, capacity: usize) -> Option<Board<K>> {
    let mut board = Board::blank(book.sizes);
    board.begin();
    let mut changed = true;
    while changed && board.held() <= capacity {
        changed = false;
        for sentence in &book.sentences {
            changed |= board.apply(sentence);
        }
    }
    (board.held() <= capacity).then_some(board)
}

#[cfg(test)]
mod tests {
    use super::*;
    use crate::kinds::{Grades, Models};
    use crate::text::read_book;
    use crate::texts;

    /// A label that is one view only: held or not.
    struct OneView;

    impl Kind for OneView {
        type Label = bool;
        const NONE: bool = false;
        const ALL: bool = true;

        fn both(one: bool, other: bool) -> bool {
            one && other
        }

        fn either(one: bool, other: bool) -> bool {
            one || other
        }

        fn number(label: bool) -> u64 {
            u64::from(label)
        }

        fn from_number(number: u64) -> Option<bool> {
            [Some(false), Some(true)].get(number as usize).copied()?
        }
    }

    /// The book as it stands on one view: a label is whether that view is held.
    fn on_one_view<Label: Copy>(book: &Book<Label>, held: impl Fn(Label) -> bool) -> Book<bool> {
        let sentences = book.sentences.iter().map(|sentence| Sentence {
            form: sentence.form,
            first: sentence.first,
            second: sentence.second,
            role: sentence.role,
            third: sentence.third,
            label: held(sentence.label),
        });
        Book { sizes: book.sizes, sentences: sentences.collect() }
    }

    /// Settles a text in a kind, and on each view by itself, and compares.
    fn views_agree<K: Kind>(bytes: &[u8], views: u32, held: fn(K::Label, u32) -> bool) {
        let book = read_book::<K>(bytes, 512).expect("a text of a book");
        let board = settle::<K>(&book, usize::MAX).expect("no bound");
        for view in 0..views {
            let one = on_one_view(&book, |label| held(label, view));
            let of_view = settle::<OneView>(&one, usize::MAX).expect("no bound");
            for node in 0..book.sizes.nodes() {
                for concept in 0..book.sizes.concepts {
                    let label = board.membership(node, concept);
                    assert_eq!(held(label, view), of_view.membership(node, concept));
                }
            }
        }
    }

    /// Each view settles by itself: labels never mix what different views hold.
    #[test]
    fn views_settle_by_themselves() {
        for (_, bytes) in texts::scattered_books_for_models() {
            views_agree::<Models>(&bytes, 64, |label, view| label >> view & 1 == 1);
        }
        for (_, bytes) in texts::scattered_books_for_grades() {
            views_agree::<Grades>(&bytes, 15, |label, view| u32::from(label) > view);
        }
    }

    /// The embosser with one unit has thirteen labels that are not none, and
    /// settles on a board of just so many entries.
    #[test]
    fn capacity_is_exact() {
        let text = b"concepts roles units\n4 1 1\nform first second role third label\n\
            3 1 0 0 2 7\n4 2 0 0 3 6\n5 0 0 0 1 2\n";
        let book = read_book::<Models>(text, 8).expect("a text of a book");
        let board = settle::<Models>(&book, 13).expect("thirteen labels fit");
        assert_eq!(board.held(), 13);
        assert_eq!(board.membership(1, 3), 6);
        assert_eq!(board.membership(4, 3), 2);
        assert_eq!(board.membership(2, 3), 0);
        assert!(settle::<Models>(&book, 12).is_none());
    }
}
