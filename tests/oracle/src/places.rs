// Holds the place of every node of a tree to the question's expressions.
// Equal expressions have equal strings, so the strings alone would not do.
use crate::decode::Node;
use crate::question::{Question, Term};
use crate::reading::Cursor;

/// The places that a node's children must have.
fn children_places(node: &Node, term: Option<&Term>) -> Vec<u32> {
    let parts = || term.map_or(vec![], |term| term.children().iter().map(|e| e.place).collect());
    match node.rule {
        7 => [parts(), vec![0]].concat(),
        1..=14 | 19 => parts(),
        15 | 16 | 20 => vec![node.place],
        21 => vec![node.place, 0],
        _ => vec![0; node.children.len()],
    }
}

fn tree_holds(words: &[u32], node: &Node) -> bool {
    let term = match node.place {
        0 => None,
        place => Cursor::from_place(words, place).term().ok(),
    };
    let found: Vec<u32> = node.children.iter().map(|child| child.place).collect();
    found == children_places(node, term.as_ref())
        && node.children.iter().all(|child| tree_holds(words, child))
}

pub fn hold_places(words: &[u32], question: &Question, tree: &Node) -> Result<(), String> {
    let root = question.term.as_ref().map_or(0, |term| term.place);
    if tree.place == root && tree_holds(words, tree) {
        return Ok(());
    }
    Err("  a node's place is not its expression's".to_string())
}
