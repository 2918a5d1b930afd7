// One reading of the question from left to right; its first fault decides.
use crate::question::{Bind, Question, Shape, Term, Ty, FIRST_FRESH};

const BAD_SHAPE: u32 = 4;
const RESERVED_NAME: u32 = 5;

/// Code and place as in the reply; cause and section are for the tally only.
#[derive(Debug, Clone)]
pub struct Fault {
    pub code: u32,
    pub at: usize,
    pub cause: &'static str,
    pub section: usize,
}

type Read<T> = Result<T, Fault>;

/// Reads items between `at` and `end`; names must be below `names`.
pub struct Cursor<'a> {
    words: &'a [u32],
    at: usize,
    end: usize,
    names: u32,
    section: usize,
}

impl<'a> Cursor<'a> {
    /// Over words of a report, where fresh names stand too.
    pub fn over_report(words: &'a [u32]) -> Self {
        Cursor { words, at: 0, end: words.len(), names: u32::MAX, section: 0 }
    }

    /// From one place of a question that was read before.
    pub fn from_place(words: &'a [u32], place: u32) -> Self {
        Cursor { at: place as usize, ..Cursor::over_report(words) }
    }

    pub fn done(&self) -> bool {
        self.at == self.end
    }

    fn fault(&self, code: u32, at: usize, cause: &'static str) -> Fault {
        Fault { code, at, cause, section: self.section }
    }

    /// The word just read is not one that may stand here.
    fn wrong(&self, cause: &'static str) -> Fault {
        self.fault(BAD_SHAPE, self.at - 1, cause)
    }

    pub fn word(&mut self) -> Read<u32> {
        if self.done() {
            return Err(self.fault(BAD_SHAPE, self.end, "stops too early"));
        }
        self.at += 1;
        Ok(self.words[self.at - 1])
    }

    fn name(&mut self) -> Read<u32> {
        let name = self.word()?;
        if name >= self.names {
            return Err(self.fault(RESERVED_NAME, self.at - 1, "reserved name"));
        }
        Ok(name)
    }

    pub fn ty(&mut self) -> Read<Ty> {
        match self.word()? {
            1 => Ok(Ty::Int),
            2 => Ok(Ty::Bool),
            3 => Ok(Ty::Var(self.name()?)),
            4 => Ok(Ty::ETVar(self.name()?)),
            5 => Ok(Ty::arrow(self.ty()?, self.ty()?)),
            6 => Ok(Ty::forall(self.name()?, self.ty()?)),
            _ => Err(self.wrong("no type")),
        }
    }

    fn unknown(&mut self) -> Read<Ty> {
        match self.word()? {
            4 => Ok(Ty::ETVar(self.name()?)),
            _ => Err(self.wrong("no ETVar")),
        }
    }

    pub fn term(&mut self) -> Read<Term> {
        let place = self.at as u32;
        let shape = match self.word()? {
            16 => Shape::Var(self.name()?),
            17 => Shape::App(self.boxed()?, self.boxed()?),
            18 => Shape::Abs(self.name()?, self.ty()?, self.boxed()?),
            19 => Shape::TApp(self.boxed()?, self.ty()?),
            20 => Shape::TAbs(self.name()?, self.boxed()?),
            21 => Shape::Ann(self.boxed()?, self.ty()?),
            22 => Shape::LitInt(self.integer()?),
            23 => Shape::LitBool(self.truth()?),
            24 => Shape::Let(self.name()?, self.boxed()?, self.boxed()?),
            25 => Shape::If(self.boxed()?, self.boxed()?, self.boxed()?),
            26 => Shape::BinOp(self.operator()?, self.boxed()?, self.boxed()?),
            _ => return Err(self.wrong("no expression")),
        };
        Ok(Term { place, shape })
    }

    fn boxed(&mut self) -> Read<Box<Term>> {
        self.term().map(Box::new)
    }

    fn integer(&mut self) -> Read<i64> {
        let low = u64::from(self.word()?);
        let high = u64::from(self.word()?);
        Ok((high << 32 | low) as i64)
    }

    fn truth(&mut self) -> Read<bool> {
        match self.word()? {
            0 => Ok(false),
            1 => Ok(true),
            _ => Err(self.wrong("no truth value")),
        }
    }

    fn operator(&mut self) -> Read<u32> {
        match self.word()? {
            op @ 1..=12 => Ok(op),
            _ => Err(self.wrong("no operator")),
        }
    }

    fn bind(&mut self) -> Read<Bind> {
        match self.word()? {
            32 => Ok(Bind::Var(self.name()?, self.ty()?)),
            33 => Ok(Bind::TVar(self.name()?)),
            34 => Ok(Bind::ETVar(self.name()?)),
            35 => Ok(Bind::Solved(self.name()?, self.ty()?)),
            36 => Ok(Bind::Mark(self.name()?)),
            _ => Err(self.wrong("no entry")),
        }
    }

    pub fn context(&mut self) -> Read<Vec<Bind>> {
        let mut binds = Vec::new();
        while !self.done() {
            binds.push(self.bind()?);
        }
        Ok(binds)
    }

    /// The next section, after its count; the cursor goes on behind it.
    pub fn section(&mut self, listed: bool) -> Read<Cursor<'a>> {
        self.section += 1;
        if self.done() {
            return Err(self.fault(BAD_SHAPE, self.end, "count missing"));
        }
        let count = self.word()? as usize;
        if count != 0 && !listed {
            return Err(self.wrong("count should be 0"));
        }
        if count > self.end - self.at {
            return Err(self.wrong("count overruns"));
        }
        let start = self.at;
        self.at += count;
        Ok(Cursor { at: start, end: self.at, ..*self })
    }

    /// A section of exactly one item, or an empty one where none is listed.
    pub fn one<T>(
        &mut self,
        listed: bool,
        item: impl Fn(&mut Cursor<'a>) -> Read<T>,
    ) -> Read<Option<T>> {
        let mut section = self.section(listed)?;
        if !listed {
            return Ok(None);
        }
        let found = item(&mut section)?;
        section.whole("section too long")?;
        Ok(Some(found))
    }

    pub fn whole(&self, cause: &'static str) -> Read<()> {
        if self.done() {
            return Ok(());
        }
        Err(self.fault(BAD_SHAPE, self.at, cause))
    }
}

fn heading(cursor: &mut Cursor) -> Read<(u32, bool)> {
    let kind = cursor.word()?;
    if !(1..=7).contains(&kind) {
        return Err(cursor.wrong("no kind"));
    }
    match cursor.word()? {
        0 => Ok((kind, false)),
        1 => Ok((kind, true)),
        _ => Err(cursor.wrong("no mode")),
    }
}

pub fn read(words: &[u32]) -> Read<Question> {
    let mut cursor = Cursor { names: FIRST_FRESH, ..Cursor::over_report(words) };
    let (kind, strict) = heading(&mut cursor)?;
    let context = cursor.section(kind != 7)?.context()?;
    let term = cursor.one(matches!(kind, 1 | 2 | 3 | 7), Cursor::term)?;
    let left = match kind {
        5 => cursor.one(true, Cursor::unknown)?,
        _ => cursor.one(matches!(kind, 3 | 4 | 6), Cursor::ty)?,
    };
    let right = match kind {
        6 => cursor.one(true, Cursor::unknown)?,
        _ => cursor.one(matches!(kind, 2 | 4 | 5), Cursor::ty)?,
    };
    cursor.section += 1;
    cursor.whole("question too long")?;
    Ok(Question { kind, strict, context, term, left, right })
}
