// Types in de Bruijn's notation: strict mode's comparison of parameters (order 2).
use crate::ast::Type;

/// A word of a type that names no letter which a Forall binds.
#[derive(PartialEq)]
enum Word<'a> {
    Int,
    Bool,
    /// A Var under no Forall of its name.
    Free(&'a str),
    /// A Var as the number of Foralls between it and its own, the innermost of its name.
    Bound(usize),
    /// An ETVar, which no Forall binds.
    Unknown(&'a str),
    Arrow,
    Forall,
}

/// The words of a type in prefix order, each made when it is asked for: of a vast type that is
/// compared with a small one no more is walked than the small one has.
struct Nameless<'a> {
    /// What is still to be written, with the number of Foralls round it.
    rest: Vec<(&'a Type, usize)>,
    /// The letters of the Foralls round the next one, outermost first.
    letters: Vec<&'a str>,
}

impl<'a> Nameless<'a> {
    fn of(ty: &'a Type) -> Self {
        Nameless { rest: vec![(ty, 0)], letters: Vec::new() }
    }

    fn variable(&self, name: &'a str) -> Word<'a> {
        let own = self.letters.iter().rev().position(|letter| *letter == name);
        own.map_or(Word::Free(name), Word::Bound)
    }
}

impl<'a> Iterator for Nameless<'a> {
    type Item = Word<'a>;

    fn next(&mut self) -> Option<Word<'a>> {
        let (ty, depth) = self.rest.pop()?;
        self.letters.truncate(depth);
        Some(match ty {
            Type::Int => Word::Int,
            Type::Bool => Word::Bool,
            Type::Var(name) => self.variable(name),
            Type::ETVar(name) => Word::Unknown(name),
            Type::Arrow(from, to) => {
                self.rest.extend([(&**to, depth), (&**from, depth)]);
                Word::Arrow
            }
            Type::Forall(letter, body) => {
                self.letters.push(letter);
                self.rest.push((&**body, depth + 1));
                Word::Forall
            }
        })
    }
}

/// Whether two types differ at most in the names that Foralls bind.
pub fn same_but_for_letters(one: &Type, other: &Type) -> bool {
    Nameless::of(one).eq(Nameless::of(other))
}
