// Reads a report's words again, knowing only document 01's layout.
use crate::question::{Bind, Ty};
use crate::reading::{Cursor, Fault};

pub struct Node {
    pub rule: u32,
    pub place: u32,
    pub input: Vec<Bind>,
    pub left: Option<Ty>,
    pub right: Option<Ty>,
    pub output: Vec<Bind>,
    pub result: Option<Ty>,
    pub children: Vec<Node>,
}

pub struct Report {
    pub ty: Option<Ty>,
    pub context: Vec<Bind>,
    pub tree: Node,
}

fn optional_type(cursor: &mut Cursor) -> Result<Option<Ty>, Fault> {
    let mut section = cursor.section(true)?;
    if section.done() {
        return Ok(None);
    }
    let ty = section.ty()?;
    section.whole("two types")?;
    Ok(Some(ty))
}

fn context(cursor: &mut Cursor) -> Result<Vec<Bind>, Fault> {
    cursor.section(true)?.context()
}

fn node(cursor: &mut Cursor) -> Result<Node, Fault> {
    let rule = cursor.word()?;
    let count = cursor.word()?;
    let mut node = Node {
        rule,
        place: cursor.word()?,
        input: context(cursor)?,
        left: optional_type(cursor)?,
        right: optional_type(cursor)?,
        output: context(cursor)?,
        result: optional_type(cursor)?,
        children: Vec::new(),
    };
    for _ in 0..count {
        node.children.push(self::node(cursor)?);
    }
    Ok(node)
}

/// The report of a reply with code 0.
pub fn report(words: &[u32]) -> Result<Report, Fault> {
    let mut cursor = Cursor::over_report(words);
    let ty = optional_type(&mut cursor)?;
    let context = context(&mut cursor)?;
    let mut section = cursor.section(true)?;
    let tree = node(&mut section)?;
    section.whole("two trees")?;
    cursor.whole("words after the tree")?;
    Ok(Report { ty, context, tree })
}

/// The two types of a type error's report.
pub fn error_types(words: &[u32]) -> Result<[Option<Ty>; 2], Fault> {
    let mut cursor = Cursor::over_report(words);
    let types = [optional_type(&mut cursor)?, optional_type(&mut cursor)?];
    cursor.whole("words after the types")?;
    Ok(types)
}

/// The rule numbers of a tree, parent first.
pub fn rules(node: &Node, out: &mut Vec<u32>) {
    out.push(node.rule);
    node.children.iter().for_each(|child| rules(child, out));
}
