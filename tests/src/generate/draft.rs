//! A bench file in the making: its numbers, the list that each one is from, and where its subtrees stand.

use crate::tree::FIRST_WITH_PARSER;

/// A number and the list it is from.
#[derive(Clone, Copy)]
pub struct Item {
    pub value: u64,
    pub least: u64,
    pub most: u64,
    /// Whether it can change without a change in how the numbers after it are read.
    pub free: bool,
}

#[derive(Clone, Copy, PartialEq, Eq)]
pub enum Sort {
    Expression,
    Statement,
}

/// A subtree: the numbers from `start` up to `end`.
#[derive(Clone, Copy)]
pub struct Subtree {
    pub sort: Sort,
    pub start: usize,
    pub end: usize,
}

pub struct Draft {
    /// The version that it is made for, whatever its first number becomes.
    pub version: u64,
    pub items: Vec<Item>,
    pub subtrees: Vec<Subtree>,
}

impl Draft {
    pub fn new(version: u64) -> Draft {
        Draft { version, items: Vec::new(), subtrees: Vec::new() }
    }

    pub fn has_parser(&self) -> bool {
        self.version >= FIRST_WITH_PARSER
    }

    /// The last tag of a statement.
    pub fn last_statement_tag(&self) -> u64 {
        if self.has_parser() {
            12
        } else {
            10
        }
    }

    pub fn len(&self) -> usize {
        self.items.len()
    }

    pub fn is_empty(&self) -> bool {
        self.items.is_empty()
    }

    /// Add a version, count, kind or tag, from a list that runs from `least` to `most`.
    pub fn push(&mut self, value: u64, least: u64, most: u64) {
        self.items.push(Item { value, least, most, free: false });
    }

    /// Add any other number from such a list.
    pub fn push_free(&mut self, value: u64, least: u64, most: u64) {
        self.items.push(Item { value, least, most, free: true });
    }

    /// Add a name among so many.
    pub fn push_name(&mut self, index: usize, count: usize) {
        self.push_free(index as u64, 0, (count as u64).saturating_sub(1));
    }

    /// Note that the numbers from `start` to here are a subtree.
    pub fn close(&mut self, sort: Sort, start: usize) {
        self.subtrees.push(Subtree { sort, start, end: self.len() });
    }

    pub fn numbers(&self) -> Vec<u64> {
        self.items.iter().map(|item| item.value).collect()
    }
}
