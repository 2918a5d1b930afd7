// Random expressions: of any shape, or led by a type so that most fit it.
use crate::make_types::Maker;
use crate::question::Ty;

/// The variables that a formula may use, with their types.
pub type Env = Vec<(u32, Ty)>;

impl Maker {
    fn literal(&mut self, truth: bool, out: &mut Vec<u32>) {
        if truth {
            out.extend([23, self.rng.below(2)]);
        } else if self.rng.percent(90) {
            out.extend([22, self.rng.below(100), 0]);
        } else {
            out.extend([22, self.rng.any(), self.rng.any()]);
        }
    }

    fn leaf_term(&mut self, out: &mut Vec<u32>) {
        if self.rng.percent(50) {
            out.extend([16, self.name()]);
        } else {
            let truth = self.rng.percent(40);
            self.literal(truth, out);
        }
    }

    /// An expression of any shape with about this many parts.
    pub fn any_term(&mut self, size: u32, out: &mut Vec<u32>) {
        if size <= 1 {
            return self.leaf_term(out);
        }
        let half = size / 2;
        match self.rng.below(14) {
            0..=2 => self.any_parts(&[17], 2, half, out),
            3..=4 => {
                out.extend([18, self.name()]);
                self.small_ty().write(out);
                self.any_term(size - 1, out);
            }
            5 | 6 => {
                let code = if self.rng.percent(50) { 19 } else { 21 };
                self.any_parts(&[code], 1, size - 1, out);
                self.small_ty().write(out);
            }
            7 => {
                let head = [20, self.name()];
                self.any_parts(&head, 1, size - 1, out);
            }
            8..=9 => {
                let head = [24, self.name()];
                self.any_parts(&head, 2, half, out);
            }
            10..=11 => self.any_parts(&[25], 3, size / 3, out),
            _ => {
                let head = [26, 1 + self.rng.below(12)];
                self.any_parts(&head, 2, half, out);
            }
        }
    }

    fn any_parts(&mut self, head: &[u32], parts: u32, size: u32, out: &mut Vec<u32>) {
        out.extend(head);
        for _ in 0..parts {
            self.any_term(size, out);
        }
    }

    /// An expression led by a type. The Rust may refuse it all the same, since
    /// its rules drop entries that a formula still needs.
    pub fn typed_term(&mut self, ty: &Ty, env: &mut Env, size: u32, out: &mut Vec<u32>) {
        if self.rng.percent(45) && self.variable(ty, env, out) {
            return;
        }
        if size <= 1 || self.rng.percent(40) {
            return self.introduced(ty, env, size, out);
        }
        match self.rng.below(10) {
            0..=1 => self.applied(ty, env, size, out),
            2 => self.type_applied(ty, env, size, out),
            3 => {
                out.push(21);
                self.typed_term(ty, env, size - 1, out);
                ty.write(out);
            }
            4..=5 => self.bound(ty, env, size, out),
            6 => {
                out.push(25);
                self.typed_term(&Ty::Bool, env, size / 3, out);
                self.typed_term(ty, env, size / 3, out);
                self.typed_term(ty, env, size / 3, out);
            }
            _ => self.introduced(ty, env, size, out),
        }
    }

    /// A variable of this type, or one whose Forall type may be opened to it.
    fn variable(&mut self, ty: &Ty, env: &Env, out: &mut Vec<u32>) -> bool {
        let fits = |held: &Ty| held == ty || matches!(held, Ty::Forall(..));
        let names: Vec<u32> = env.iter().filter(|(_, held)| fits(held)).map(|(x, _)| *x).collect();
        if names.is_empty() {
            return false;
        }
        out.extend([16, self.rng.pick(&names)]);
        true
    }

    fn under(&mut self, x: u32, held: Ty, ty: &Ty, env: &mut Env, size: u32, out: &mut Vec<u32>) {
        env.push((x, held));
        self.typed_term(ty, env, size, out);
        env.pop();
    }

    fn introduced(&mut self, ty: &Ty, env: &mut Env, size: u32, out: &mut Vec<u32>) {
        let half = size / 2;
        match ty {
            Ty::Int if half > 0 => {
                let op = 1 + self.rng.below(4);
                self.operation(op, &Ty::Int, env, half, out);
            }
            Ty::Int => self.literal(false, out),
            Ty::Bool if half > 0 => self.test(env, half, out),
            Ty::Bool => self.literal(true, out),
            Ty::Arrow(from, to) => {
                let x = self.name();
                out.extend([18, x]);
                let written = if self.rng.percent(92) { (**from).clone() } else { self.near(from) };
                written.write(out);
                self.under(x, (**from).clone(), to, env, size.saturating_sub(1), out);
            }
            Ty::Forall(a, body) if self.rng.percent(70) => {
                out.extend([20, *a]);
                self.typed_term(body, env, size.saturating_sub(1), out);
            }
            Ty::Forall(_, body) => self.typed_term(body, env, size.saturating_sub(1), out),
            Ty::Var(_) | Ty::ETVar(_) => self.leaf_term(out),
        }
    }

    /// An operation whose result is a Bool.
    fn test(&mut self, env: &mut Env, half: u32, out: &mut Vec<u32>) {
        let op = 5 + self.rng.below(8);
        let either = [Ty::Int, Ty::Bool][self.rng.index(2)].clone();
        let of = match op {
            5..=6 => Ty::Bool,
            7..=8 => either,
            _ => Ty::Int,
        };
        self.operation(op, &of, env, half, out);
    }

    fn operation(&mut self, op: u32, of: &Ty, env: &mut Env, half: u32, out: &mut Vec<u32>) {
        out.extend([26, op]);
        self.typed_term(of, env, half, out);
        self.typed_term(of, env, half, out);
    }

    fn applied(&mut self, ty: &Ty, env: &mut Env, size: u32, out: &mut Vec<u32>) {
        let from = self.closed_ty(size / 3, &mut Vec::new());
        out.push(17);
        self.typed_term(&Ty::arrow(from.clone(), ty.clone()), env, size / 2, out);
        self.typed_term(&from, env, size / 2, out);
    }

    /// The identity at a type, or an expression with a type to throw away.
    fn type_applied(&mut self, ty: &Ty, env: &mut Env, size: u32, out: &mut Vec<u32>) {
        let a = self.name();
        if self.rng.percent(50) {
            let x = self.name();
            out.extend([17, 19, 20, a, 18, x, 3, a, 16, x]);
            ty.write(out);
            self.typed_term(ty, env, size - 1, out);
        } else {
            out.extend([19, 20, a]);
            self.typed_term(ty, env, size - 1, out);
            self.small_ty().write(out);
        }
    }

    fn bound(&mut self, ty: &Ty, env: &mut Env, size: u32, out: &mut Vec<u32>) {
        let x = self.name();
        let held = self.closed_ty(size / 2, &mut Vec::new());
        out.extend([24, x]);
        self.typed_term(&held, env, size / 2, out);
        self.under(x, held, ty, env, size / 2, out);
    }
}
