//! The compiled code of some crates, as `rattle build` writes it into each library's folder
//! (`toolchain/mir.json`), from where a program or an archive is linked: the functions that
//! one function reaches by its calls, and whether one of them makes an array: has a local
//! that holds one by value, or moves one through a pointer. What is not understood is a
//! fault.

mod body;
mod tree;
mod types;
mod values;

use std::collections::{BTreeMap, BTreeSet};
use tree::{Node, Tree};

#[derive(Default)]
pub struct Listing<'t> {
    tree: Tree<'t>,
    functions: BTreeMap<&'t str, Function<'t>>,
}

struct Function<'t> {
    /// The type of each local: the result, the parameters, then the others.
    locals: Vec<Node>,
    body: Node,
    /// What the named types are that the function's locals have.
    described: BTreeMap<&'t str, Node>,
}

pub struct Reached {
    /// Each function with its number of locals.
    pub functions: Vec<(String, usize)>,
    pub faults: Vec<String>,
}

impl<'t> Listing<'t> {
    /// The functions of all these texts, one of each crate.
    pub fn parse(texts: &[&'t str]) -> Result<Listing<'t>, &'static str> {
        let mut listing = Listing::default();
        for text in texts {
            let list = listing.tree.parse(text)?;
            listing.add(list)?;
        }
        Ok(listing)
    }

    fn add(&mut self, list: Node) -> Result<(), &'static str> {
        for &pair in self.tree.members(list).ok_or("its functions are no list")? {
            let (name, function) =
                function_of(&self.tree, pair).ok_or("a function is of unknown form")?;
            if self.functions.insert(name, function).is_some() {
                return Err("a function stands in it twice");
            }
        }
        Ok(())
    }

    /// Goes through what `root` reaches.
    pub fn reach(&self, root: &str) -> Reached {
        let mut reached = Reached { functions: Vec::new(), faults: Vec::new() };
        let Some((&root, _)) = self.functions.get_key_value(root) else {
            reached.faults.push(format!("{root}: not in the listing"));
            return reached;
        };
        let mut met = BTreeSet::from([root]);
        let mut next = vec![root];
        while let Some(name) = next.pop() {
            let function = &self.functions[name];
            reached.functions.push((name.to_string(), function.locals.len()));
            let (callees, mut faults) = self.judge(function);
            for callee in callees {
                if !self.functions.contains_key(callee) {
                    faults.push(format!("calls {callee}, which is not in the listing"));
                } else if met.insert(callee) {
                    next.push(callee);
                }
            }
            reached.faults.extend(faults.iter().map(|fault| format!("{name}: {fault}")));
        }
        reached
    }

    /// The functions that a function calls, and its own faults.
    fn judge(&self, function: &Function<'t>) -> (Vec<&'t str>, Vec<String>) {
        let (callees, mut faults) = body::calls(&self.tree, function.body, &function.described);
        for (number, &local) in function.locals.iter().enumerate() {
            if let Some(fault) = types::fault(&self.tree, &function.described, local) {
                faults.push(format!("local {number} {fault}"));
            }
        }
        (callees, faults)
    }
}

fn function_of<'t>(tree: &Tree<'t>, pair: Node) -> Option<(&'t str, Function<'t>)> {
    let &[name, item] = tree.members(pair)? else { return None };
    let names = ["lifetimes", "outlives", "params", "generics", "types", "locals", "body"];
    let [_, _, _, _, types, locals, body] = tree.fields(item, names)?;
    let mut function = Function { locals: Vec::new(), body, described: BTreeMap::new() };
    for &local in tree.members(locals)? {
        let [local_type, _] = tree.fields(local, ["ty", "home"])?;
        function.locals.push(local_type);
    }
    for &described in tree.members(types)? {
        let (name, shape) = types::described(tree, described)?;
        if function.described.insert(name, shape).is_some() {
            return None;
        }
    }
    Some((tree.text(name)?, function))
}
