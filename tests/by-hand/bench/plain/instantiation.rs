//! Instantiation: inst_l and inst_r, the same rules with the sides exchanged but for those of Forall.

use crate::contexts::{Context, Key};
use crate::run::{refused, Answer, Ask, Run, Stop};
use crate::types::{Type, TypeRef, INT};

/// The side on which the unknown stands.
#[derive(Clone, Copy, PartialEq)]
enum Side {
    Left,
    Right,
}

impl Side {
    fn other(self) -> Side {
        match self {
            Side::Left => Side::Right,
            Side::Right => Side::Left,
        }
    }

    /// The number of the side's Solve; Reach, Arr and All follow it.
    fn first_rule(self) -> u32 {
        match self {
            Side::Left => 30,
            Side::Right => 34,
        }
    }

    fn ask(self, a: TypeRef, ty: TypeRef) -> Ask {
        match self {
            Side::Left => Ask { kind: 5, expr: 0, left: a, right: ty },
            Side::Right => Ask { kind: 6, expr: 0, left: ty, right: a },
        }
    }
}

fn untyped(context: Context, rule: u32, children: u32) -> Answer {
    Answer { context, ty: INT, rule, children }
}

impl Run<'_> {
    pub fn inst_l(&mut self, g: Context, a: TypeRef, ty: TypeRef) -> Result<Answer, Stop> {
        self.inst(Side::Left, g, a, ty)
    }

    pub fn inst_r(&mut self, g: Context, ty: TypeRef, a: TypeRef) -> Result<Answer, Stop> {
        self.inst(Side::Right, g, a, ty)
    }

    fn inst(&mut self, side: Side, g: Context, a: TypeRef, ty: TypeRef) -> Result<Answer, Stop> {
        let node = self.enter(g)?;
        let answer = self.inst_rule(side, g, a, ty)?;
        self.leave(node, g, side.ask(a, ty), answer)
    }

    fn inst_rule(
        &mut self,
        side: Side,
        g: Context,
        a: TypeRef,
        ty: TypeRef,
    ) -> Result<Answer, Stop> {
        let name = self.unknown_name(a);
        let rule = side.first_rule();
        match self.ty(ty) {
            Type::ETVar(b) if self.before(g, name, b) => {
                let out = self.replace(g, b, &[Key::Solved(b).of(a)]);
                Ok(untyped(out, rule + 1, 0))
            }
            Type::Arrow(from, to) => self.inst_arrow(side, g, name, from, to),
            Type::Forall(b, body) => self.inst_forall(side, g, a, b, body),
            _ if !self.is_mono(ty) => refused(16, name, ty, 0),
            _ if self.occurs(name, ty) => refused(14, name, ty, 0),
            _ => {
                let out = self.replace(g, name, &[Key::Solved(name).of(ty)]);
                Ok(untyped(out, rule, 0))
            }
        }
    }

    /// The name of an ETVar.
    fn unknown_name(&self, a: TypeRef) -> u32 {
        match self.ty(a) {
            Type::ETVar(name) => name,
            _ => unreachable!("an unknown is an ETVar"),
        }
    }

    /// Solves an unknown by an arrow of two fresh ones, which stand right of it.
    pub fn part(&mut self, g: Context, name: u32) -> (Context, TypeRef, TypeRef) {
        let (b, c) = (self.fresh_name(), self.fresh_name());
        let (from, to) = (self.etvar(b), self.etvar(c));
        let arrow = self.arrow(from, to);
        let entries = [Key::Solved(name).of(arrow), Key::ETVar(b).bare(), Key::ETVar(c).bare()];
        (self.replace(g, name, &entries), from, to)
    }

    fn inst_arrow(
        &mut self,
        side: Side,
        g: Context,
        name: u32,
        from: TypeRef,
        to: TypeRef,
    ) -> Result<Answer, Stop> {
        let (g1, b, c) = self.part(g, name);
        let g2 = self.inst(side.other(), g1, b, from)?.context;
        let to = self.apply(g2, to)?;
        let g3 = self.inst(side, g2, c, to)?.context;
        Ok(untyped(g3, side.first_rule() + 2, 2))
    }

    fn inst_forall(
        &mut self,
        side: Side,
        g: Context,
        a: TypeRef,
        b: u32,
        body: TypeRef,
    ) -> Result<Answer, Stop> {
        let (g1, body, key) = match side {
            Side::Left => (self.push(g, &[Key::TVar(b).bare()]), body, Key::TVar(b)),
            Side::Right => self.open(g, b, body)?,
        };
        let out = self.inst(side, g1, a, body)?.context;
        Ok(untyped(self.right_of(out, key), side.first_rule() + 3, 1))
    }

    /// A Forall's body with an unknown for its name; the unknown and a mark are pushed. The mark's key.
    pub fn open(
        &mut self,
        g: Context,
        b: u32,
        body: TypeRef,
    ) -> Result<(Context, TypeRef, Key), Stop> {
        let unknown = self.etvar(b);
        let body = self.subst(b, unknown, body)?;
        let g = self.push(g, &[Key::ETVar(b).bare(), Key::Mark(b).bare()]);
        Ok((g, body, Key::Mark(b)))
    }
}
