//! Contexts: runs of entries in work that never change; each change makes a new run at the top.

use std::ops::Range;

use crate::run::{Run, Stop};
use crate::types::{TypeRef, INT};

/// Words of an entry: kind, name, type (INT where it holds none).
const ENTRY: usize = 3;

type Entry = [u32; ENTRY];

#[derive(Clone, Copy)]
pub struct Context {
    pub at: usize,
    pub len: usize,
}

/// An entry's kind and name, by which it is sought.
#[derive(Clone, Copy, PartialEq)]
pub enum Key {
    Var(u32),
    TVar(u32),
    ETVar(u32),
    Solved(u32),
    Mark(u32),
}

const SOLVED: u32 = 35;

impl Key {
    fn words(self) -> (u32, u32) {
        match self {
            Key::Var(x) => (32, x),
            Key::TVar(a) => (33, a),
            Key::ETVar(a) => (34, a),
            Key::Solved(a) => (SOLVED, a),
            Key::Mark(a) => (36, a),
        }
    }

    pub fn of(self, ty: TypeRef) -> Entry {
        let (kind, name) = self.words();
        [kind, name, ty]
    }

    pub fn bare(self) -> Entry {
        self.of(INT)
    }
}

pub fn holds_type(kind: u32) -> bool {
    kind == 32 || kind == SOLVED
}

impl Context {
    fn words(self, entries: Range<usize>) -> Range<usize> {
        self.at + ENTRY * entries.start..self.at + ENTRY * entries.end
    }
}

impl Run<'_> {
    pub fn entries(&self, g: Context) -> impl Iterator<Item = &[u32]> {
        self.work[g.words(0..g.len)].chunks_exact(ENTRY)
    }

    /// The index of the earliest entry with this key.
    pub fn find(&self, g: Context, key: Key) -> Option<usize> {
        let (kind, name) = key.words();
        self.entries(g).position(|entry| entry[0] == kind && entry[1] == name)
    }

    /// The type of the earliest entry with this key.
    pub fn lookup(&self, g: Context, key: Key) -> Option<TypeRef> {
        self.find(g, key).map(|i| self.work[g.at + ENTRY * i + 2])
    }

    /// Whether both are unsolved and a stands later.
    pub fn before(&self, g: Context, a: u32, b: u32) -> bool {
        match (self.find(g, Key::ETVar(a)), self.find(g, Key::ETVar(b))) {
            (Some(i), Some(j)) => i > j,
            _ => false,
        }
    }

    /// The question's context; refused where entering with it could not be paid.
    pub fn load(&mut self, places: Range<usize>) -> Result<Context, Stop> {
        let at = self.top;
        let mut len = 0;
        let mut place = places.start;
        while place < places.end {
            len += 1;
            if len >= self.left as usize {
                return Err(Stop::Spent);
            }
            let (kind, name) = (self.question[place], self.question[place + 1]);
            place += 2;
            let mut ty = INT;
            if holds_type(kind) {
                ty = place as u32;
                place = self.end_of(ty) as usize;
            }
            self.put([kind, name, ty]);
        }
        Ok(Context { at, len })
    }

    fn copy(&mut self, g: Context, entries: Range<usize>) {
        let words = g.words(entries);
        let to = self.top;
        self.top += words.len();
        self.work.copy_within(words, to);
    }

    fn since(&self, at: usize) -> Context {
        Context { at, len: (self.top - at) / ENTRY }
    }

    pub fn push(&mut self, g: Context, entries: &[Entry]) -> Context {
        let at = self.top;
        self.copy(g, 0..g.len);
        for entry in entries {
            self.put(*entry);
        }
        self.since(at)
    }

    /// Puts entries in the place of the earliest unsolved a, or at the end.
    pub fn replace(&mut self, g: Context, a: u32, entries: &[Entry]) -> Context {
        let at = self.top;
        let i = self.find(g, Key::ETVar(a)).unwrap_or(g.len);
        self.copy(g, 0..i);
        for entry in entries {
            self.put(*entry);
        }
        self.copy(g, (i + 1).min(g.len)..g.len);
        self.since(at)
    }

    /// What stands right of the earliest entry with this key.
    pub fn right_of(&self, g: Context, key: Key) -> Context {
        let next = self.find(g, key).map_or(g.len, |i| i + 1);
        Context { at: g.at + ENTRY * next, len: g.len - next }
    }

    /// The solved entries left of the earliest entry with this key, then those right of it.
    pub fn solved_and_right(&mut self, g: Context, key: Key) -> Context {
        let at = self.top;
        let i = self.find(g, key).unwrap_or(g.len);
        for j in 0..i {
            if self.work[g.at + ENTRY * j] == SOLVED {
                self.copy(g, j..j + 1);
            }
        }
        self.copy(g, (i + 1).min(g.len)..g.len);
        self.since(at)
    }
}
