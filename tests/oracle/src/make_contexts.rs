// Random contexts: every kind of entry in odd orders, doubled, solved in
// chains and in rings.
use crate::make_terms::Env;
use crate::make_types::Maker;
use crate::question::Ty;

impl Maker {
    pub fn context(&mut self) -> Vec<u32> {
        let mut out = Vec::new();
        match self.rng.below(20) {
            0..=3 => (),
            4..=9 => self.entries(8, &mut out),
            10..=14 => self.unknowns(&mut out),
            15..=18 => self.chain(&mut out),
            _ => self.ring(&mut out),
        }
        out
    }

    fn entries(&mut self, most: u32, out: &mut Vec<u32>) {
        for _ in 0..=self.rng.below(most) {
            let code = 32 + self.rng.below(5);
            out.extend([code, self.name()]);
            if matches!(code, 32 | 35) {
                self.small_ty().write(out);
            }
        }
    }

    fn unknowns(&mut self, out: &mut Vec<u32>) {
        for _ in 0..2 + self.rng.below(5) {
            out.extend([34, 1 + self.rng.below(4)]);
            if self.rng.percent(25) {
                self.entries(2, out);
            }
        }
    }

    /// Each solved by the next, the last by a type or not at all.
    fn chain(&mut self, out: &mut Vec<u32>) {
        let start = 1 + self.rng.below(3);
        for name in start..=4 {
            let next = Ty::ETVar(name + 1);
            let solution = match self.rng.below(4) {
                0 => Ty::arrow(next.clone(), next),
                1 => Ty::forall(self.name(), next),
                2 => self.small_ty(),
                _ => next,
            };
            out.extend([35, name]);
            solution.write(out);
        }
        self.entries(3, out);
    }

    /// A solution that leads back to itself.
    fn ring(&mut self, out: &mut Vec<u32>) {
        let others = self.rng.below(3);
        for name in 1..=others {
            out.extend([35, name, 4, name + 1]);
        }
        out.extend([35, others + 1]);
        match self.rng.below(3) {
            0 => Ty::ETVar(1).write(out),
            1 => Ty::arrow(Ty::Int, Ty::ETVar(1)).write(out),
            _ => Ty::arrow(Ty::ETVar(1), Ty::ETVar(1)).write(out),
        }
        self.entries(3, out);
    }

    /// Variables that a formula may use, with the entries that bind them.
    pub fn bound_variables(&mut self) -> (Env, Vec<u32>) {
        let (mut env, mut out) = (Env::new(), Vec::new());
        for _ in 0..self.rng.below(5) {
            let (x, size) = (self.name(), self.rng.below(6));
            let ty = self.closed_ty(size, &mut Vec::new());
            out.extend([32, x]);
            ty.write(&mut out);
            env.push((x, ty));
            if self.rng.percent(20) {
                self.entries(2, &mut out);
            }
        }
        (env, out)
    }
}
