#!/usr/bin/env python3
"""Writes the two test copies of the Rust.

usage: copy.py ZOO ORACLE OUT     folders: of the Rust, of this program, of the copies

OUT/original is the Rust with its private functions and fields opened (and, where
EXACT is set, with a Display of types that tells any two of them apart).
OUT/counted is the same text with charges, strict mode and structured nodes
put around it. Every patch must match exactly once, so that a changed source
is noticed here and not in a wrong answer.
"""
import os
import pathlib
import shutil
import sys

sys.path.insert(0, str(pathlib.Path(__file__).resolve().parent.parent))
from shared.script import makeable, refuse, text  # noqa: E402

USAGE = "copy.py ZOO ORACLE OUT"
PRIVATE = [
    "fresh_tyvar", "is_mono", "free_vars", "subst_type", "apply_ctx_type_once",
    "before", "occurs_check", "inst_l", "inst_r", "subtype", "check", "infer_app",
]
JUDGEMENTS = ["infer", "check", "infer_app", "subtype", "inst_l", "inst_r"]

# Put around the text of typecheck.rs for the counted copy: (old, new).
COUNTING = [
    ("use std::fmt;\n",
     "use std::fmt;\nuse std::rc::Rc as Box;\n\nuse crate::meter::{Judged, Meter};\n"),
    ("pub children: Vec<InferenceTree>,\n}",
     "pub children: Vec<InferenceTree>,\n    pub judged: Option<Judged>,\n}"),
    ("            children,\n        }\n",
     "            children,\n            judged: None,\n        }\n"),
    ("    counter: usize,\n", "    counter: usize,\n    pub meter: Meter,\n"),
    ("impl Default for BiDirectional {\n    fn default() -> Self {\n"
     "        Self::new()\n    }\n}\n", ""),
    ("    pub fn new() -> Self {\n        Self { counter: 0 }\n",
     "    pub fn new(meter: Meter) -> Self {\n        Self { counter: 0, meter }\n"),
    ('let var = format!("α{}", self.counter);',
     'let var = std::format!("α{}", self.counter);'),
    ("fn subst_type(&self, var: &TyVar, replacement: &Type, ty: &Type) -> Type {\n",
     "fn subst_type(&self, var: &TyVar, replacement: &Type, ty: &Type) -> Type {\n"
     "        self.meter.charge(1);\n"),
    ("        let mut changed = true;\n",
     "        let mut changed = true;\n        self.meter.first_pass_begins();\n"),
    ("            if new_type != current {\n",
     "            self.meter.pass_ends(new_type != current);\n"
     "            if new_type != current {\n"),
    ("fn apply_ctx_type_once(&self, ctx: &Context, ty: &Type) -> Type {\n",
     "fn apply_ctx_type_once(&self, ctx: &Context, ty: &Type) -> Type {\n"
     "        self.meter.charge_in_first_pass();\n"),
    ("*expected_param.clone()", "(**expected_param).clone()"),
    ("                // For simplicity, we assume the parameter type matches\n",
     "                self.strict_parameter(ctx, _param_ty, expected_param)?;\n"),
    ("self.subtype(&ctx3, &ty2, &ty3)?;",
     "{\n            let (then_ty, else_ty) = self.strict_branches(&ctx3, &ty2, &ty3);\n"
     "            self.subtype(&ctx3, &then_ty, &else_ty)?\n        };"),
    ("pub fn run_bidirectional(expr: &Expr)",
     "pub fn run_bidirectional(bi: &mut BiDirectional, expr: &Expr)"),
    ("    let mut bi = BiDirectional::new();\n", ""),
]


def once(text, old, new):
    found = text.count(old)
    if found != 1:
        sys.exit(f"copy.py: found {found} times, wanted once:\n{old}")
    return text.replace(old, new)


def cut(text, first, after):
    """The text without what stands from `first` up to `after`."""
    once(text, first, first), once(text, after, after)
    return text[:text.index(first)] + text[text.index(after):]


def opened(typecheck):
    typecheck = once(typecheck, "pub struct Context(Vec<Entry>);",
                     "pub struct Context(pub Vec<Entry>);")
    for name in PRIVATE:
        typecheck = once(typecheck, f"    fn {name}(", f"    pub fn {name}(")
    return typecheck


def without_crates(errors):
    errors = cut(errors, "use ariadne::", "use crate::ast::Type;")
    errors = cut(errors, "/// Source span", "#[derive(Debug)]\n#[allow(clippy")
    return cut(errors, "#[derive(Error, Debug)]", "pub type TypeResult")


def counted_typecheck(typecheck):
    for name in JUDGEMENTS:
        typecheck = once(typecheck, f"    pub fn {name}(", f"    pub fn {name}_inside(")
    for old, new in COUNTING:
        typecheck = once(typecheck, old, new)
    return typecheck


def counted_errors(errors):
    errors = once(errors, "pub enum TypeError {\n",
                  "pub enum TypeError {\n    ParameterMismatch { written: Type, applied: Type },\n\n")
    return once(errors, "        match self {\n",
                "        match self {\n            TypeError::ParameterMismatch { .. } => Ok(()),\n")


def exact(ast):
    """The text with parentheses round every Forall: the Rust's own Display has
    none, and then two types left of an arrow may have one string."""
    return once(ast, 'write!(f, "∀{}. {}", var, ty)', 'write!(f, "(∀{}. {})", var, ty)')


def write(out, own, texts):
    out.mkdir(parents=True, exist_ok=True)
    for name, text in texts.items():
        (out / name).write_text(text)
    for file in own.glob("*.rs"):
        shutil.copy(file, out / file.name)


def main():
    zoo, oracle, out = map(pathlib.Path, sys.argv[1:] if len(sys.argv) == 4 else [""] * 3)
    own = [oracle / name / "lib.rs" for name in ("original", "counted")]
    if not all(map(os.path.isfile, own)) or not makeable(out / "original") or not makeable(out / "counted"):
        refuse(USAGE)
    ast, errors, typecheck = (text(zoo / name, USAGE) for name in ("ast.rs", "errors.rs", "typecheck.rs"))
    errors, typecheck = without_crates(errors), opened(typecheck)
    write(out / "original", oracle / "original",
          {"ast.rs": exact(ast) if "EXACT" in os.environ else ast,
           "errors.rs": errors, "typecheck.rs": typecheck})
    write(out / "counted", oracle / "counted",
          {"ast.rs": "use std::rc::Rc as Box;\n\n" + ast,
           "errors.rs": counted_errors(errors),
           "typecheck.rs": counted_typecheck(typecheck)})


main()
