// Random well-formed questions of every kind and mode.
use crate::make_types::Maker;
use crate::question::Ty;

/// A question before its words are joined.
pub struct Draft {
    pub kind: u32,
    pub mode: u32,
    pub context: Vec<u32>,
    pub term: Vec<u32>,
    pub left: Vec<u32>,
    pub right: Vec<u32>,
}

impl Draft {
    pub fn new(kind: u32, mode: u32) -> Draft {
        let empty = Vec::new;
        Draft { kind, mode, context: empty(), term: empty(), left: empty(), right: empty() }
    }

    pub fn words(&self) -> Vec<u32> {
        let mut words = vec![self.kind, self.mode];
        for section in [&self.context, &self.term, &self.left, &self.right] {
            words.push(section.len() as u32);
            words.extend(section);
        }
        words
    }
}

impl Maker {
    pub fn question(&mut self) -> Draft {
        let kind = self.rng.pick(&[1, 1, 2, 2, 2, 3, 3, 4, 4, 4, 5, 5, 6, 6, 7, 7, 7, 7]);
        let mode = u32::from(self.rng.percent(30));
        let mut draft = Draft::new(kind, mode);
        match kind {
            1 | 2 | 7 => self.formula(&mut draft),
            3 => self.application(&mut draft),
            4 => self.subtyping(&mut draft),
            _ => self.instantiation(&mut draft),
        }
        draft
    }

    /// Kinds 1, 2 and 7: a formula, mostly led by a type.
    fn formula(&mut self, draft: &mut Draft) {
        let size = self.size();
        let ty_size = self.rng.below(7);
        let ty = self.closed_ty(ty_size, &mut Vec::new());
        let (mut env, bound) = self.bound_variables();
        draft.context = bound;
        if draft.kind == 7 {
            env.clear();
            draft.context.clear();
        } else if self.rng.percent(40) {
            draft.context.extend(self.context());
        }
        if self.rng.percent(75) {
            self.typed_term(&ty, &mut env, size, &mut draft.term);
        } else {
            self.any_term(size, &mut draft.term);
        }
        if draft.kind == 2 {
            draft.right = if self.rng.percent(75) { ty.words() } else { self.near(&ty).words() };
        }
    }

    /// Kind 3: an argument and the type of a function.
    fn application(&mut self, draft: &mut Draft) {
        let (size, ty_size) = (self.size(), self.rng.below(5));
        let from = self.closed_ty(ty_size, &mut Vec::new());
        let (mut env, bound) = self.bound_variables();
        draft.context = bound;
        if self.rng.percent(60) {
            draft.context.extend(self.context());
        }
        self.typed_term(&from, &mut env, size, &mut draft.term);
        let function = match self.rng.below(10) {
            0..=4 => Ty::arrow(from, self.small_ty()),
            5 => Ty::arrow(self.near(&from), self.small_ty()),
            6..=8 => Ty::ETVar(self.name()),
            _ => self.small_ty(),
        };
        draft.left = function.words();
    }

    /// Kind 4: two types that are alike, mostly.
    fn subtyping(&mut self, draft: &mut Draft) {
        draft.context = self.context();
        let size = self.size().min(14);
        let left = if self.rng.percent(50) {
            self.ty(size)
        } else {
            self.closed_ty(size, &mut Vec::new())
        };
        let right = if self.rng.percent(85) { self.near(&left) } else { self.small_ty() };
        let (left, right) = if self.rng.percent(50) { (left, right) } else { (right, left) };
        draft.left = left.words();
        draft.right = right.words();
    }

    /// Kinds 5 and 6: an unknown and a type.
    fn instantiation(&mut self, draft: &mut Draft) {
        draft.context = self.context();
        let unknown = Ty::ETVar(self.name()).words();
        let size = self.size().min(12);
        let ty = match self.rng.below(4) {
            0 => Ty::ETVar(1 + self.rng.below(4)),
            1 => self.closed_ty(size, &mut Vec::new()),
            _ => self.ty(size),
        };
        if draft.kind == 5 {
            draft.left = unknown;
            draft.right = ty.words();
        } else {
            draft.left = ty.words();
            draft.right = unknown;
        }
    }
}
