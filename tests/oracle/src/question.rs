// The parts of a question, as document 01's numbers spell them.

/// Written names are below this; the k-th fresh name is this plus k.
pub const FIRST_FRESH: u32 = 1_000_000;

#[derive(Debug, Clone, PartialEq)]
pub enum Ty {
    Int,
    Bool,
    Var(u32),
    ETVar(u32),
    Arrow(Box<Ty>, Box<Ty>),
    Forall(u32, Box<Ty>),
}

/// An expression with the place of its first word in the question.
#[derive(Debug)]
pub struct Term {
    pub place: u32,
    pub shape: Shape,
}

#[derive(Debug)]
pub enum Shape {
    Var(u32),
    App(Box<Term>, Box<Term>),
    Abs(u32, Ty, Box<Term>),
    TApp(Box<Term>, Ty),
    TAbs(u32, Box<Term>),
    Ann(Box<Term>, Ty),
    LitInt(i64),
    LitBool(bool),
    Let(u32, Box<Term>, Box<Term>),
    If(Box<Term>, Box<Term>, Box<Term>),
    BinOp(u32, Box<Term>, Box<Term>),
}

#[derive(Debug, Clone, PartialEq)]
pub enum Bind {
    Var(u32, Ty),
    TVar(u32),
    ETVar(u32),
    Solved(u32, Ty),
    Mark(u32),
}

#[derive(Debug)]
pub struct Question {
    pub kind: u32,
    pub strict: bool,
    pub context: Vec<Bind>,
    pub term: Option<Term>,
    pub left: Option<Ty>,
    pub right: Option<Ty>,
}

impl Ty {
    pub fn arrow(from: Ty, to: Ty) -> Ty {
        Ty::Arrow(Box::new(from), Box::new(to))
    }

    pub fn forall(name: u32, body: Ty) -> Ty {
        Ty::Forall(name, Box::new(body))
    }

    /// Appends the type's words.
    pub fn write(&self, out: &mut Vec<u32>) {
        match self {
            Ty::Int => out.push(1),
            Ty::Bool => out.push(2),
            Ty::Var(a) => out.extend([3, *a]),
            Ty::ETVar(a) => out.extend([4, *a]),
            Ty::Arrow(from, to) => {
                out.push(5);
                from.write(out);
                to.write(out);
            }
            Ty::Forall(a, body) => {
                out.extend([6, *a]);
                body.write(out);
            }
        }
    }

    pub fn words(&self) -> Vec<u32> {
        let mut out = Vec::new();
        self.write(&mut out);
        out
    }
}

impl Term {
    pub fn children(&self) -> Vec<&Term> {
        match &self.shape {
            Shape::Var(_) | Shape::LitInt(_) | Shape::LitBool(_) => vec![],
            Shape::Abs(_, _, e) | Shape::TApp(e, _) | Shape::TAbs(_, e) | Shape::Ann(e, _) => {
                vec![e]
            }
            Shape::App(e1, e2) | Shape::Let(_, e1, e2) | Shape::BinOp(_, e1, e2) => vec![e1, e2],
            Shape::If(e1, e2, e3) => vec![e1, e2, e3],
        }
    }
}
