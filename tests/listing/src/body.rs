//! Whom a function's body calls, and whether a value of it is an array.

use crate::tree::{Node, Tree};
use crate::values;
use std::collections::BTreeMap;

/// The functions that a body calls, and a fault for each form that is not understood or
/// makes an array. A body is a tree that is written as a list: each statement stands before
/// those inside it.
pub fn calls<'t>(
    tree: &Tree<'t>,
    body: Node,
    described: &BTreeMap<&str, Node>,
) -> (Vec<&'t str>, Vec<String>) {
    let mut callees = Vec::new();
    let mut faults = Vec::new();
    // How many statements the tree wants still.
    let mut wanted = 1usize;
    let mut is_tree = true;
    for &statement in tree.members(body).unwrap_or(&[]) {
        is_tree &= wanted != 0;
        let mut inside = 0;
        let mut fault = None;
        match tree.applied(statement) {
            Some(("Skip" | "Return", []) | ("Exit", [_])) => {}
            Some(("Assign", &[place, value])) => {
                fault = values::place(tree, described, place)
                    .or_else(|| values::value(tree, described, value));
            }
            Some(("Seq", [])) => inside = 2,
            Some(("Block" | "Loop", [])) => inside = 1,
            Some(("If", &[test])) => {
                fault = values::operand(tree, described, test);
                inside = 2;
            }
            Some(("Switch", &[number, arms, has_default])) => {
                fault = values::operand(tree, described, number);
                match (tree.members(arms), tree.is_true(has_default)) {
                    (Some(arms), Some(has_default)) => {
                        inside = arms.len() + usize::from(has_default);
                    }
                    _ => fault = Some("a switch is of unknown form".to_string()),
                }
            }
            Some(("Call", &[target, arguments, place])) => {
                fault = values::operands(tree, described, arguments)
                    .or_else(|| values::place(tree, described, place));
                match callee(tree, target) {
                    Some(name) => callees.push(name),
                    None => faults.push("a callee is not resolved".to_string()),
                }
            }
            _ => fault = Some("a statement is of unknown form".to_string()),
        }
        faults.extend(fault);
        wanted = (wanted + inside).saturating_sub(1);
    }
    if !is_tree || wanted != 0 {
        faults.push("its body is no tree".to_string());
    }
    (callees, faults)
}

/// A function that is called by its name, with no types of the caller's choice.
fn callee<'t>(tree: &Tree<'t>, target: Node) -> Option<&'t str> {
    let ("Fn", &[name, given]) = tree.applied(target)? else { return None };
    let [types, dicts] = tree.fields(given, ["types", "dicts"])?;
    match (tree.members(types)?, tree.members(dicts)?) {
        ([], []) => tree.text(name),
        _ => None,
    }
}
