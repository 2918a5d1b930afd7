//! Reading: one pass over the question's words, which also notes where each type and each expression ends.

use crate::MOST_WORDS;

/// Written names are below this; the k-th fresh name is this plus k.
pub const FIRST_FRESH: u32 = 1_000_000;

const CONTEXT: usize = 3;

/// For each place where a type or an expression begins, the place past it.
pub type Ends = [u16; MOST_WORDS];

/// Beside an end: a type without Forall ends there.
pub const MONO_END: u16 = 1 << 15;

/// A question's parts: places of its expression and types, 0 where there is none.
pub struct Asked {
    pub kind: u32,
    pub strict: bool,
    /// The places from the context's first word to past its last one.
    pub entries: std::ops::Range<usize>,
    pub expr: u32,
    pub left: u32,
    pub right: u32,
}

/// 4 BadShape or 5 ReservedName, and the place.
pub struct Fault {
    pub code: u32,
    pub at: usize,
}

fn bad_shape<T>(at: usize) -> Result<T, Fault> {
    Err(Fault { code: 4, at })
}

/// What a section holds.
#[derive(Clone, Copy)]
enum Holds {
    Nothing,
    Entries,
    Expr,
    Type,
    Unknown,
}

fn plan(kind: u32) -> [Holds; 4] {
    use Holds::*;
    match kind {
        1 => [Entries, Expr, Nothing, Nothing],
        2 => [Entries, Expr, Nothing, Type],
        3 => [Entries, Expr, Type, Nothing],
        4 => [Entries, Nothing, Type, Type],
        5 => [Entries, Nothing, Unknown, Type],
        6 => [Entries, Nothing, Type, Unknown],
        _ => [Nothing, Expr, Nothing, Nothing],
    }
}

/// A place in the words, which may be read up to an end.
struct Reader<'a> {
    words: &'a [u32],
    ends: &'a mut Ends,
    at: usize,
    end: usize,
}

pub fn read(words: &[u32], ends: &mut Ends) -> Result<Asked, Fault> {
    let mut reader = Reader { words, ends, at: 0, end: words.len() };
    let kind = reader.within(1, 7)?;
    let mode = reader.within(0, 1)?;
    let [context, expr, left, right] = plan(kind);
    reader.section(context)?;
    let entries = CONTEXT..reader.at;
    let expr = reader.section(expr)?;
    let left = reader.section(left)?;
    let right = reader.section(right)?;
    if reader.at < words.len() {
        return bad_shape(reader.at);
    }
    Ok(Asked { kind, strict: mode == 1, entries, expr, left, right })
}

impl Reader<'_> {
    fn word(&mut self) -> Result<u32, Fault> {
        if self.at >= self.end {
            return bad_shape(self.at);
        }
        self.at += 1;
        Ok(self.words[self.at - 1])
    }

    fn within(&mut self, low: u32, high: u32) -> Result<u32, Fault> {
        let word = self.word()?;
        if word < low || word > high {
            return bad_shape(self.at - 1);
        }
        Ok(word)
    }

    fn name(&mut self) -> Result<(), Fault> {
        if self.word()? >= FIRST_FRESH {
            return Err(Fault { code: 5, at: self.at - 1 });
        }
        Ok(())
    }

    /// Reads a type; whether no Forall is in it.
    fn ty(&mut self) -> Result<bool, Fault> {
        let start = self.at;
        let mono = match self.word()? {
            1 | 2 => true,
            3 | 4 => {
                self.name()?;
                true
            }
            5 => self.ty()? & self.ty()?,
            6 => {
                self.name()?;
                self.ty()?;
                false
            }
            _ => return bad_shape(start),
        };
        self.ends[start] = self.at as u16 | if mono { MONO_END } else { 0 };
        Ok(mono)
    }

    fn expr(&mut self) -> Result<(), Fault> {
        let start = self.at;
        match self.word()? {
            16 => self.name()?,
            17 => self.exprs(2)?,
            18 => {
                self.name()?;
                self.ty()?;
                self.expr()?;
            }
            19 | 21 => {
                self.expr()?;
                self.ty()?;
            }
            20 => {
                self.name()?;
                self.expr()?;
            }
            22 => {
                self.word()?;
                self.word()?;
            }
            23 => drop(self.within(0, 1)?),
            24 => {
                self.name()?;
                self.exprs(2)?;
            }
            25 => self.exprs(3)?,
            26 => {
                self.within(1, 12)?;
                self.exprs(2)?;
            }
            _ => return bad_shape(start),
        }
        self.ends[start] = self.at as u16;
        Ok(())
    }

    fn exprs(&mut self, count: usize) -> Result<(), Fault> {
        for _ in 0..count {
            self.expr()?;
        }
        Ok(())
    }

    fn entry(&mut self) -> Result<(), Fault> {
        let start = self.at;
        match self.word()? {
            32 | 35 => {
                self.name()?;
                self.ty().map(drop)
            }
            33 | 34 | 36 => self.name(),
            _ => bad_shape(start),
        }
    }

    /// The one ETVar of kinds 5 and 6.
    fn unknown(&mut self) -> Result<(), Fault> {
        let start = self.at;
        self.within(4, 4)?;
        self.name()?;
        self.ends[start] = self.at as u16 | MONO_END;
        Ok(())
    }

    /// Reads a section after its count; the place of its item, 0 if it has none.
    fn section(&mut self, holds: Holds) -> Result<u32, Fault> {
        let count_at = self.at;
        self.end = self.words.len();
        let count = self.word()? as usize;
        let first = self.at;
        if count > self.words.len() - first {
            return bad_shape(count_at);
        }
        self.end = first + count;
        match holds {
            Holds::Nothing if count > 0 => return bad_shape(count_at),
            Holds::Nothing => return Ok(0),
            Holds::Entries => {
                while self.at < self.end {
                    self.entry()?;
                }
            }
            Holds::Expr => self.expr()?,
            Holds::Type => drop(self.ty()?),
            Holds::Unknown => self.unknown()?,
        }
        if self.at < self.end {
            return bad_shape(self.at);
        }
        Ok(first as u32)
    }
}
