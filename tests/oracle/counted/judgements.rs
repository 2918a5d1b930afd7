// The six judgements with document 01's charges around the Rust's own text,
// and the two steps that strict mode adds inside.
use crate::ast::{Expr, Type};
use crate::errors::{TypeError, TypeResult};
use crate::meter::{Judged, Judgement};
use crate::nameless::same_but_for_letters;
use crate::typecheck::{BiDirectional, Context, InferenceTree, TyVar};

type Typed = TypeResult<(Type, Context, InferenceTree)>;
type Untyped = TypeResult<(Context, InferenceTree)>;

impl BiDirectional {
    pub fn infer(&mut self, ctx: &Context, expr: &Expr) -> Typed {
        self.meter.enter(ctx);
        let found = self.infer_inside(ctx, expr)?;
        Ok(self.typed(Judgement::Infer, ctx, expr, None, found))
    }

    pub fn infer_app(&mut self, ctx: &Context, func_ty: &Type, arg: &Expr) -> Typed {
        self.meter.enter(ctx);
        let found = self.infer_app_inside(ctx, func_ty, arg)?;
        Ok(self.typed(Judgement::InferApp, ctx, arg, Some(func_ty), found))
    }

    pub fn check(&mut self, ctx: &Context, expr: &Expr, ty: &Type) -> Untyped {
        self.meter.enter(ctx);
        let found = self.check_inside(ctx, expr, ty)?;
        let place = self.meter.place(expr);
        Ok(self.untyped(Judgement::Check, ctx, place, [None, Some(ty)], found))
    }

    pub fn subtype(&mut self, ctx: &Context, t1: &Type, t2: &Type) -> Untyped {
        self.meter.enter(ctx);
        let found = self.subtype_inside(ctx, t1, t2)?;
        Ok(self.untyped(Judgement::Subtype, ctx, 0, [Some(t1), Some(t2)], found))
    }

    pub fn inst_l(&mut self, ctx: &Context, a: &TyVar, ty: &Type) -> Untyped {
        self.meter.enter(ctx);
        let found = self.inst_l_inside(ctx, a, ty)?;
        let left = Type::ETVar(a.clone());
        Ok(self.untyped(Judgement::InstL, ctx, 0, [Some(&left), Some(ty)], found))
    }

    pub fn inst_r(&mut self, ctx: &Context, ty: &Type, a: &TyVar) -> Untyped {
        self.meter.enter(ctx);
        let found = self.inst_r_inside(ctx, ty, a)?;
        let right = Type::ETVar(a.clone());
        Ok(self.untyped(Judgement::InstR, ctx, 0, [Some(ty), Some(&right)], found))
    }

    fn typed(
        &self,
        judgement: Judgement,
        input: &Context,
        expr: &Expr,
        left: Option<&Type>,
        (ty, output, mut tree): (Type, Context, InferenceTree),
    ) -> (Type, Context, InferenceTree) {
        self.meter.succeed(&output);
        tree.judged = Some(Judged {
            judgement,
            place: self.meter.place(expr),
            input: input.clone(),
            left: left.cloned(),
            right: None,
            output: output.clone(),
            result: Some(ty.clone()),
        });
        (ty, output, tree)
    }

    fn untyped(
        &self,
        judgement: Judgement,
        input: &Context,
        place: u32,
        [left, right]: [Option<&Type>; 2],
        (output, mut tree): (Context, InferenceTree),
    ) -> (Context, InferenceTree) {
        self.meter.succeed(&output);
        tree.judged = Some(Judged {
            judgement,
            place,
            input: input.clone(),
            left: left.cloned(),
            right: right.cloned(),
            output: output.clone(),
            result: None,
        });
        (output, tree)
    }

    /// Strict mode's ChkLam: the written parameter is the expected one, applied, but for the
    /// letters that Foralls bind. Both are translated, which is charged nothing.
    pub fn strict_parameter(
        &self,
        ctx: &Context,
        written: &Type,
        expected: &Type,
    ) -> TypeResult<()> {
        if !self.meter.strict {
            return Ok(());
        }
        let applied = self.apply_ctx_type(ctx, expected);
        if same_but_for_letters(written, &applied) {
            return Ok(());
        }
        Err(TypeError::ParameterMismatch { written: written.clone(), applied })
    }

    /// Strict mode's InfIf: the branch types as subtype gets them.
    pub fn strict_branches(&self, ctx: &Context, then_ty: &Type, else_ty: &Type) -> (Type, Type) {
        if !self.meter.strict {
            return (then_ty.clone(), else_ty.clone());
        }
        let then_applied = self.apply_ctx_type(ctx, then_ty);
        let else_applied = self.apply_ctx_type(ctx, else_ty);
        (then_applied, else_applied)
    }
}
