//! Types by reference: in the question as written, in work as records that share their parts.

use crate::reading::MONO_END;
use crate::run::Run;

/// Below `IN_WORK` a place of the question, else `IN_WORK` plus a place of work.
pub type TypeRef = u32;

const IN_WORK: TypeRef = 2_048;
pub const INT: TypeRef = IN_WORK;
pub const BOOL: TypeRef = IN_WORK + 1;

/// In a record's first word beside the code, which is below this: no Forall is in the type.
pub const MONO: u32 = 8;

#[derive(Clone, Copy)]
pub enum Type {
    Int,
    Bool,
    Var(u32),
    ETVar(u32),
    Arrow(TypeRef, TypeRef),
    Forall(u32, TypeRef),
}

impl Run<'_> {
    pub fn ty(&self, r: TypeRef) -> Type {
        if r < IN_WORK {
            self.written_type(r)
        } else {
            self.made_type((r - IN_WORK) as usize)
        }
    }

    fn written_type(&self, r: TypeRef) -> Type {
        let at = r as usize;
        match self.question[at] {
            1 => Type::Int,
            2 => Type::Bool,
            3 => Type::Var(self.question[at + 1]),
            4 => Type::ETVar(self.question[at + 1]),
            5 => Type::Arrow(r + 1, self.end_of(r + 1)),
            _ => Type::Forall(self.question[at + 1], r + 2),
        }
    }

    fn made_type(&self, at: usize) -> Type {
        match self.work[at] % MONO {
            1 => Type::Int,
            2 => Type::Bool,
            4 => Type::ETVar(self.work[at + 1]),
            5 => Type::Arrow(self.work[at + 1], self.work[at + 2]),
            _ => Type::Forall(self.work[at + 1], self.work[at + 2]),
        }
    }

    /// The words of a type that stands in the question.
    pub fn written_words(&self, r: TypeRef) -> Option<&[u32]> {
        (r < IN_WORK).then(|| &self.question[r as usize..self.end_of(r) as usize])
    }

    /// The type's length in words, which stops at the largest number.
    pub fn length(&self, r: TypeRef) -> u32 {
        if r < IN_WORK {
            return self.end_of(r) - r;
        }
        let at = (r - IN_WORK) as usize;
        match self.work[at] % MONO {
            1 | 2 => 1,
            4 => 2,
            _ => self.work[at + 3],
        }
    }

    /// Whether no Forall is in the type, as was noted when it was read or made.
    pub fn is_mono(&self, r: TypeRef) -> bool {
        let mono = if r < IN_WORK {
            self.ends[r as usize] & MONO_END != 0
        } else {
            self.work[(r - IN_WORK) as usize] & MONO != 0
        };
        debug_assert_eq!(mono, self.walked_mono(r));
        mono
    }

    /// The same by a walk, which the notes are held to.
    fn walked_mono(&self, r: TypeRef) -> bool {
        match self.ty(r) {
            Type::Arrow(from, to) => self.walked_mono(from) && self.walked_mono(to),
            Type::Forall(..) => false,
            _ => true,
        }
    }

    pub fn etvar(&mut self, a: u32) -> TypeRef {
        IN_WORK + self.put([4 | MONO, a]) as u32
    }

    pub fn arrow(&mut self, from: TypeRef, to: TypeRef) -> TypeRef {
        let length = self.length(from).saturating_add(self.length(to)).saturating_add(1);
        let mono = if self.is_mono(from) & self.is_mono(to) { MONO } else { 0 };
        IN_WORK + self.put([5 | mono, from, to, length]) as u32
    }

    pub fn forall(&mut self, a: u32, body: TypeRef) -> TypeRef {
        let length = self.length(body).saturating_add(2);
        IN_WORK + self.put([6, a, body, length]) as u32
    }

    /// Whether a occurs free; Var and ETVar of one name count alike.
    pub fn occurs(&self, a: u32, r: TypeRef) -> bool {
        match self.ty(r) {
            Type::Int | Type::Bool => false,
            Type::Var(b) | Type::ETVar(b) => a == b,
            Type::Arrow(from, to) => self.occurs(a, from) || self.occurs(a, to),
            Type::Forall(b, body) => a != b && self.occurs(a, body),
        }
    }

    /// Whether two types differ at most in the letters that Foralls bind.
    pub fn same(&self, r: TypeRef, s: TypeRef) -> bool {
        self.same_under(r, s, &mut Vec::new())
    }

    /// The same below Foralls, whose letters are paired, innermost last.
    fn same_under(&self, r: TypeRef, s: TypeRef, letters: &mut Vec<(u32, u32)>) -> bool {
        match (self.ty(r), self.ty(s)) {
            (Type::Int, Type::Int) | (Type::Bool, Type::Bool) => true,
            (Type::Var(a), Type::Var(b)) => paired(letters, a, b),
            (Type::ETVar(a), Type::ETVar(b)) => a == b,
            (Type::Arrow(r1, r2), Type::Arrow(s1, s2)) => {
                self.same_under(r1, s1, letters) && self.same_under(r2, s2, letters)
            }
            (Type::Forall(a, r), Type::Forall(b, s)) => {
                letters.push((a, b));
                let same = self.same_under(r, s, letters);
                letters.pop();
                same
            }
            _ => false,
        }
    }
}

/// Whether two names have one Forall, the innermost of either, or are free and the same.
fn paired(letters: &[(u32, u32)], a: u32, b: u32) -> bool {
    match letters.iter().rfind(|(c, d)| *c == a || *d == b) {
        Some(pair) => *pair == (a, b),
        None => a == b,
    }
}
