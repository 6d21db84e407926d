//! What stands in a statement: values, operands and places. Each function answers why what
//! it is given is not allowed. None of them calls, so a function is named in none.

use crate::tree::{Node, Tree};
use crate::types;
use std::collections::BTreeMap;

type Described<'a> = BTreeMap<&'a str, Node>;
type Fault = Option<String>;

/// What is assigned.
pub fn value(tree: &Tree, described: &Described, value: Node) -> Fault {
    match tree.applied(value) {
        Some(("Opd", &[only])) => operand(tree, described, only),
        Some(("Op1", &[operator, only])) => {
            operation(tree, operator).or_else(|| operand(tree, described, only))
        }
        Some(("Op2", &[operator, left, right])) => operation(tree, operator)
            .or_else(|| operand(tree, described, left))
            .or_else(|| operand(tree, described, right)),
        Some(("AddrOf", &[of])) => place(tree, described, of),
        Some(("Aggregate", parts)) => parts.iter().find_map(|&part| operand(tree, described, part)),
        Some(("Repeat", _)) => Some("a value is repeated into an array".to_string()),
        _ => unknown(),
    }
}

pub fn operands(tree: &Tree, described: &Described, list: Node) -> Fault {
    match tree.members(list) {
        Some(members) => members.iter().find_map(|&member| operand(tree, described, member)),
        None => unknown(),
    }
}

pub fn operand(tree: &Tree, described: &Described, operand: Node) -> Fault {
    match tree.applied(operand) {
        Some(("Copy", &[from])) => place(tree, described, from),
        Some(("Int", [_]) | ("Unit" | "True" | "False", [])) => None,
        Some(("Fn", _)) => Some("a function's address is taken".to_string()),
        _ => unknown(),
    }
}

/// A local, and the steps from it; what a pointer leads to must hold no array either, so
/// that none is moved as a whole.
pub fn place(tree: &Tree, described: &Described, place: Node) -> Fault {
    let Some([_, steps]) = tree.fields(place, ["local", "steps"]) else { return unknown() };
    let Some(steps) = tree.members(steps) else { return unknown() };
    steps.iter().find_map(|&step| match tree.applied(step) {
        Some(("Field" | "Variant", [_])) => None,
        Some(("Deref", &[target])) => types::fault(tree, described, target)
            .map(|fault| format!("what a pointer leads to {fault}")),
        _ => unknown(),
    })
}

fn operation(tree: &Tree, operator: Node) -> Fault {
    match tree.applied(operator) {
        Some(("Add" | "Sub" | "Mul" | "Div" | "Rem" | "Lt" | "Le", [_])) => None,
        Some(("Eq" | "Ne" | "And" | "Or" | "Xor" | "Not" | "Offset", [])) => None,
        Some(("Cast", [_, _, _])) => None,
        _ => unknown(),
    }
}

fn unknown() -> Fault {
    Some("a value is of unknown form".to_string())
}
