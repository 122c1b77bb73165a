//! What has been worked out of a state's chains, kept for the rest of a call.
//!
//! It grows from height 0 up, so that each height is looked at once and each block digested at most once, whatever the
//! blocks name as their parents.

use crate::block::{self, Block};
use crate::chain::Chain;
use crate::height::Height;
use std::cell::RefCell;

/// What is known of the heights from 0 up to some height.
#[derive(Clone, Default)]
pub(crate) struct Links(RefCell<Vec<Link>>);

/// What is known of a height.
#[derive(Clone, Copy)]
pub(crate) struct Link {
    /// Whether a chain of notarized blocks and dummies goes from here down to 0.
    pub linked: bool,
    /// The height from which on all up to this one are dummies; one above it if it is none itself.
    pub dummies_from: Height,
    /// The digest of the notarized block, once it was asked for.
    digest: Option<[u8; 32]>,
}

impl Chain<'_> {
    /// What is known of a height.
    pub fn link(&self, height: Height) -> Option<Link> {
        self.with_links(height, |links| links.get(usize::from(height)).copied())
    }

    /// Whether a block of this height sits on a chain of the state (document 01: stands).
    pub fn extends(&self, block: &Block, height: Height) -> bool {
        let below = height.saturating_sub(1);
        self.with_links(below, |links| self.stands(links, block, height))
    }

    /// The digest that a child of this height names: zero for height 0.
    pub fn digest_at(&self, height: Height) -> Option<[u8; 32]> {
        self.with_links(height, |links| self.digest_of(links, height))
    }

    /// Works the links out up to a height, and lets them be used.
    fn with_links<T>(&self, height: Height, usage: impl FnOnce(&mut [Link]) -> T) -> T {
        let mut links = self.view.links().0.borrow_mut();
        for next in (0..=height).skip(links.len()) {
            let link = self.next_link(&mut links, next);
            links.push(link);
        }
        usage(&mut links)
    }

    /// The link of a height, where those of all heights below are known.
    fn next_link(&self, below: &mut [Link], height: Height) -> Link {
        let Some(last) = below.last().copied() else {
            return Link { linked: true, dummies_from: 1, digest: Some([0; 32]) };
        };
        let block = self.notarized(height);
        let linked = block.is_some_and(|block| self.stands(below, block, height));
        let above = height.saturating_add(1);
        let dummies_from = if self.is_dummy(height) { last.dummies_from } else { above };
        Link { linked, dummies_from, digest: None }
    }

    /// Whether a block of a height stands, where the links of all heights below are known.
    fn stands(&self, below: &mut [Link], block: &Block, height: Height) -> bool {
        let parent = block::parent_height(block);
        let Some(last) = height.checked_sub(1).and_then(|last| below.get(usize::from(last))) else {
            return false;
        };
        let reached = parent < height && last.dummies_from <= parent.saturating_add(1);
        reached
            && below.get(usize::from(parent)).is_some_and(|link| link.linked)
            && self.digest_of(below, parent).is_some_and(|d| d == block::parent_digest(block))
    }

    /// The digest of the notarized block of a height; worked out once.
    fn digest_of(&self, links: &mut [Link], height: Height) -> Option<[u8; 32]> {
        let link = links.get_mut(usize::from(height))?;
        if link.digest.is_none() {
            link.digest = Some((self.digest)(self.notarized(height)?));
        }
        link.digest
    }
}
