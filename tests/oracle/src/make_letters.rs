// Questions for strict mode's comparison of parameters (order 2): lambdas whose parameter is the
// expected one in other letters, or nearly so. The letters are few, so that they clash.
use crate::make_questions::Draft;
use crate::make_types::Maker;
use crate::question::{Bind, Ty};
use crate::reading::Cursor;
use crate::recount::applied;

/// Letters of Foralls, each with the one put in its place, innermost last.
type Pairs = Vec<(u32, u32)>;

/// What stands for a letter: that of the innermost Forall of it, else itself.
fn stands_for(letter: u32, pairs: &Pairs) -> u32 {
    let own = pairs.iter().rev().find(|(from, _)| *from == letter);
    own.map_or(letter, |(_, to)| *to)
}

fn free_letters(ty: &Ty) -> Vec<u32> {
    match ty {
        Ty::Int | Ty::Bool | Ty::ETVar(_) => vec![],
        Ty::Var(a) => vec![*a],
        Ty::Arrow(from, to) => [free_letters(from), free_letters(to)].concat(),
        Ty::Forall(a, body) => free_letters(body).into_iter().filter(|b| b != a).collect(),
    }
}

/// The type whose first Forall has another letter while its body stays, and the letter it had.
fn first_takes(ty: &Ty, letter: u32) -> Option<(u32, Ty)> {
    match ty {
        Ty::Forall(a, body) => Some((*a, Ty::Forall(letter, body.clone()))),
        Ty::Arrow(from, to) => match first_takes(from, letter) {
            Some((had, from)) => Some((had, Ty::Arrow(from.into(), to.clone()))),
            None => {
                first_takes(to, letter).map(|(had, to)| (had, Ty::Arrow(from.clone(), to.into())))
            }
        },
        _ => None,
    }
}

impl Maker {
    fn letter(&mut self) -> u32 {
        1 + self.rng.below(4)
    }

    /// A type of few letters, with unknowns of this number and later ones.
    fn lettered(&mut self, size: u32, unknowns: u32) -> Ty {
        match self.rng.below(if size <= 1 { 10 } else { 60 }) {
            0..=5 => Ty::Var(self.letter()),
            6..=7 => Ty::ETVar(unknowns + self.rng.below(4)),
            8 => Ty::Int,
            9 => Ty::Bool,
            10..=37 => Ty::forall(self.letter(), self.lettered(size - 1, unknowns)),
            _ => {
                let first = 1 + self.rng.below(size - 1);
                Ty::arrow(self.lettered(first, unknowns), self.lettered(size - first, unknowns))
            }
        }
    }

    /// The type with other letters for its Foralls. None captures another, or some do.
    fn relettered(&mut self, ty: &Ty, pairs: &mut Pairs, capture: bool) -> Ty {
        match ty {
            Ty::Var(a) => Ty::Var(stands_for(*a, pairs)),
            Ty::Arrow(from, to) => {
                let from = self.relettered(from, pairs, capture);
                Ty::arrow(from, self.relettered(to, pairs, capture))
            }
            Ty::Forall(a, body) => {
                let others = free_letters(body).into_iter().filter(|b| b != a);
                let taken: Vec<u32> = others.map(|b| stands_for(b, pairs)).collect();
                let mut letter = 1 + self.rng.below(6);
                if capture && !taken.is_empty() && self.rng.percent(60) {
                    letter = self.rng.pick(&taken);
                }
                while !capture && taken.contains(&letter) {
                    letter += 1;
                }
                pairs.push((*a, letter));
                let body = self.relettered(body, pairs, capture);
                pairs.pop();
                Ty::forall(letter, body)
            }
            Ty::Int | Ty::Bool | Ty::ETVar(_) => ty.clone(),
        }
    }

    /// One small change of this sort right here, where it can be made.
    fn change(&mut self, sort: u32, ty: &Ty) -> Option<Ty> {
        match (sort, ty) {
            (0..=3, Ty::Var(_)) => Some(Ty::Var(self.letter())),
            (4, Ty::Var(a)) => Some(Ty::ETVar(*a)),
            (4..=5, Ty::ETVar(a)) => Some(Ty::Var(*a)),
            (5, Ty::Var(_)) => Some(Ty::ETVar(self.letter())),
            // the letters of two Foralls exchanged
            (6..=7, Ty::Forall(a, body)) => {
                first_takes(body, *a).map(|(b, body)| Ty::forall(b, body))
            }
            // the inner one takes the outer one's
            (8..=9, Ty::Forall(a, body)) => {
                first_takes(body, *a).map(|(_, body)| Ty::forall(*a, body))
            }
            (10, Ty::Forall(_, body)) => Some(Ty::Forall(self.letter(), body.clone())),
            (11, Ty::Int | Ty::Bool | Ty::Var(_) | Ty::ETVar(_)) => Some(self.lettered(1, 1)),
            (12, Ty::Arrow(from, to)) => Some(Ty::Arrow(to.clone(), from.clone())),
            (13, Ty::Forall(_, body)) => Some((**body).clone()),
            (14, _) => Some(Ty::forall(self.letter(), ty.clone())),
            _ => None,
        }
    }

    /// The type with one change of this sort, at one of the places where it can be made.
    fn changed(&mut self, sort: u32, ty: &Ty) -> Ty {
        if self.rng.percent(40) {
            if let Some(changed) = self.change(sort, ty) {
                return changed;
            }
        }
        match ty {
            Ty::Arrow(from, to) if self.rng.percent(50) => {
                Ty::Arrow(self.changed(sort, from).into(), to.clone())
            }
            Ty::Arrow(from, to) => Ty::Arrow(from.clone(), self.changed(sort, to).into()),
            Ty::Forall(a, body) => Ty::forall(*a, self.changed(sort, body)),
            _ => self.change(sort, ty).unwrap_or_else(|| ty.clone()),
        }
    }

    /// The type as another programmer may have written it.
    fn rewritten(&mut self, ty: &Ty) -> Ty {
        let capture = self.rng.percent(15);
        let written = self.relettered(ty, &mut Vec::new(), capture);
        if self.rng.percent(30) {
            return written;
        }
        let sort = self.rng.below(15);
        self.changed(sort, &written)
    }

    /// Entries, most of them solved; none leads back to itself, since its unknowns are later ones.
    fn solutions(&mut self) -> Vec<u32> {
        let mut out = Vec::new();
        if self.rng.percent(40) {
            return out;
        }
        for _ in 0..=self.rng.below(4) {
            let letter = self.letter();
            match self.rng.below(8) {
                0 => out.extend([33 + self.rng.below(2), letter]),
                1 => out.extend([32, 5, 3, letter]),
                _ => {
                    let size = 1 + self.rng.below(4);
                    out.extend([35, letter]);
                    self.lettered(size, letter + 1).write(&mut out);
                }
            }
        }
        out
    }

    /// Writes a lambda, and gives the type that it is to be checked against.
    fn lambda(&mut self, context: &[Bind], out: &mut Vec<u32>) -> Ty {
        let size = 1 + self.rng.below(8);
        let body = self.lettered(size, 1);
        let expected = (0..self.rng.below(3)).fold(body, |ty, _| Ty::forall(self.letter(), ty));
        let written =
            if self.rng.percent(95) { applied(context, &expected).0 } else { expected.clone() };
        let x = 5 + self.rng.below(3);
        out.extend([18, x]);
        self.rewritten(&written).write(out);
        let result = match self.rng.below(12) {
            0 => {
                out.extend([23, 1]);
                Ty::Bool
            }
            1 => {
                out.extend([16, x]);
                expected.clone()
            }
            2..=3 => self.lambda(context, out),
            _ => {
                out.extend([22, 1, 0]);
                Ty::Int
            }
        };
        Ty::arrow(expected, result)
    }

    /// A lambda below other rules: annotated, and that named or abstracted over; or an argument.
    fn below_others(&mut self, context: &[Bind]) -> Vec<u32> {
        let mut lambda = Vec::new();
        let ty = self.lambda(context, &mut lambda);
        let annotated = [&[21], &lambda[..], &ty.words()].concat();
        let one = [22, 1, 0];
        match self.rng.below(5) {
            0 => [&[24, 8], &annotated[..], &one].concat(),
            1 => [&[20, self.letter()], &annotated[..]].concat(),
            2 => {
                // fun f:F. 1, annotated F to Int, and applied to the lambda
                let written = self.rewritten(&applied(context, &ty).0).words();
                let function = Ty::arrow(ty, Ty::Int).words();
                [&[17, 21, 18, 8], &written[..], &one, &function, &lambda].concat()
            }
            _ => annotated,
        }
    }

    /// A question whose answer hangs on letters, nine in ten of them strict.
    pub fn letters(&mut self) -> Vec<u32> {
        let kind = self.rng.pick(&[2, 2, 2, 2, 2, 2, 2, 1, 3, 7]);
        let mut draft = Draft::new(kind, u32::from(self.rng.percent(90)));
        if kind != 7 {
            draft.context = self.solutions();
        }
        let context = Cursor::over_report(&draft.context).context().expect("whole entries");
        if matches!(kind, 1 | 7) {
            draft.term = self.below_others(&context);
            return draft.words();
        }
        let mut ty = self.lambda(&context, &mut draft.term);
        if kind == 2 && self.rng.percent(15) {
            ty = Ty::forall(self.letter(), ty);
        }
        match kind {
            2 => draft.right = ty.words(),
            _ => draft.left = Ty::arrow(ty, Ty::Int).words(),
        }
        draft.words()
    }
}
