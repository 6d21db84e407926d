//! What a local's type holds by value.

use crate::tree::{Node, Tree};
use std::collections::{BTreeMap, BTreeSet};

/// Why a local of this type is not allowed. A reference or pointer does not hold what it
/// points to.
pub fn fault(tree: &Tree, described: &BTreeMap<&str, Node>, local: Node) -> Option<String> {
    // The types to look at, each with the named type whose description it comes from.
    let mut held = vec![(local, None)];
    let mut met = BTreeSet::new();
    while let Some((held_type, within)) = held.pop() {
        match tree.applied(held_type) {
            Some(("Int" | "Float", [_]) | ("Bool" | "Unit" | "Ptr", [])) => {}
            Some(("Ref", [_, _, _])) => {}
            Some(("Array", [_, _])) => return Some(array_fault(within)),
            Some(("Struct", &[_, fields])) => match tree.members(fields) {
                Some(fields) => held.extend(fields.iter().map(|&field| (field, within))),
                None => return Some(form_fault(within)),
            },
            Some(("Named", &[head, types])) => {
                let Some((name, given)) = name_of(tree, head, types) else {
                    return Some(form_fault(within));
                };
                // What it holds of the types that it takes is held by one of these.
                held.extend(given.iter().map(|&one| (one, within)));
                if met.contains(name) {
                    continue;
                }
                let Some(&shape) = described.get(name) else {
                    if !given.is_empty() {
                        return Some(form_fault(within));
                    }
                    return Some(format!("holds {name}, which is not described"));
                };
                met.insert(name);
                let Some(fields) = fields_of(tree, shape) else {
                    return Some(form_fault(Some(name)));
                };
                let own =
                    fields.into_iter().filter(|&field| given.is_empty() || !is_taken(tree, field));
                held.extend(own.map(|field| (field, Some(name))));
            }
            _ => return Some(form_fault(within)),
        }
    }
    None
}

fn array_fault(within: Option<&str>) -> String {
    match within {
        None => "holds an array".to_string(),
        Some(name) => format!("holds an array in {name}"),
    }
}

fn form_fault(within: Option<&str>) -> String {
    match within {
        None => "is of a type of unknown form".to_string(),
        Some(name) => format!("holds {name}, in which a type is of unknown form"),
    }
}

/// The name of a named type, and the types that it takes. The lifetimes that it takes hold nothing.
fn name_of<'a, 't>(tree: &'a Tree<'t>, head: Node, types: Node) -> Option<(&'t str, &'a [Node])> {
    let [name, lifetimes] = tree.fields(head, ["name", "lifetimes"])?;
    for &lifetime in tree.members(lifetimes)? {
        let (("Named" | "Bound", [_]) | ("Static" | "Erased", [])) = tree.applied(lifetime)? else {
            return None;
        };
    }
    Some((tree.text(name)?, tree.members(types)?))
}

/// Whether a field is of a type that its type takes.
fn is_taken(tree: &Tree, field: Node) -> bool {
    matches!(tree.applied(field), Some(("Param", [_])))
}

/// The name and the shape of a type, as a function describes it.
pub fn described<'t>(tree: &Tree<'t>, described: Node) -> Option<(&'t str, Node)> {
    let names = [
        "name",
        "lifetimes",
        "bounds",
        "type_params",
        "const_params",
        "type_bounds",
        "owns",
        "is_cell",
        "shape",
        "is_tuple",
    ];
    let [name, _, _, _, _, _, _, _, shape, _] = tree.fields(described, names)?;
    Some((tree.text(name)?, shape))
}

/// The types of a struct's fields, or of the fields of all of an enum's variants.
fn fields_of(tree: &Tree, shape: Node) -> Option<Vec<Node>> {
    match tree.applied(shape)? {
        ("Fields", fields) => Some(fields.to_vec()),
        ("Variants", variants) => {
            let mut all = Vec::new();
            for &fields in variants {
                all.extend(tree.members(fields)?);
            }
            Some(all)
        }
        _ => None,
    }
}
