//! JSON texts as trees. All nodes stand in one vector and name each other by their place in
//! it, so neither reading nor dropping a deep tree takes stack.

use std::mem::{replace, take};
use std::slice;

#[derive(Clone, Copy)]
pub struct Node(usize);

enum Form<'t> {
    /// A number, `true`, `false` or `null`.
    Word(&'t str),
    /// What stands between quotes, as it stands there.
    Text(&'t str),
    List(Vec<Node>),
    Record(Vec<(&'t str, Node)>),
}

#[derive(Default)]
pub struct Tree<'t> {
    forms: Vec<Form<'t>>,
}

/// A list or record that is being read.
struct Open<'t> {
    is_record: bool,
    names: Vec<&'t str>,
    nodes: Vec<Node>,
    /// What may stand next.
    next: Next,
}

#[derive(Clone, Copy, PartialEq)]
enum Next {
    /// A value, or the end of a list in which nothing stands yet.
    First,
    /// A value.
    Value,
    /// The colon behind a name.
    Colon,
    /// A comma or the end.
    Comma,
    /// A name, or the end of a record in which nothing stands yet.
    FirstName,
    Name,
}

impl<'t> Tree<'t> {
    /// Reads one more text, of one value.
    pub fn parse(&mut self, text: &'t str) -> Result<Node, &'static str> {
        // What is read, and what stands around it. The whole text is as a list of one value.
        let mut now = Open { is_record: false, names: vec![], nodes: vec![], next: Next::Value };
        let mut around = Vec::new();
        let mut rest = text;
        while let Some(first) = rest.chars().next() {
            let mut size = first.len_utf8();
            match (first, now.next) {
                (' ' | '\n' | '\r' | '\t', _) => {}
                ('[' | '{', Next::First | Next::Value) => {
                    let is_record = first == '{';
                    let next = if is_record { Next::FirstName } else { Next::First };
                    let inner = Open { is_record, names: vec![], nodes: vec![], next };
                    around.push(replace(&mut now, inner));
                }
                (']', Next::First | Next::Comma) if !now.is_record && !around.is_empty() => {
                    let list = take(&mut now.nodes);
                    now = around.pop().ok_or("a list ends that did not begin")?;
                    self.add(&mut now, Form::List(list));
                }
                ('}', Next::FirstName | Next::Comma) if now.is_record => {
                    let members = take(&mut now.names).into_iter().zip(take(&mut now.nodes));
                    now = around.pop().ok_or("a record ends that did not begin")?;
                    self.add(&mut now, Form::Record(members.collect()));
                }
                (',', Next::Comma) if !around.is_empty() => {
                    now.next = if now.is_record { Next::Name } else { Next::Value };
                }
                (':', Next::Colon) => now.next = Next::Value,
                ('"', next) => {
                    let inside = text_size(&rest[1..]).ok_or("a text does not end")?;
                    let inner = &rest[1..1 + inside];
                    size = inside + 2;
                    match next {
                        Next::FirstName | Next::Name => {
                            now.names.push(inner);
                            now.next = Next::Colon;
                        }
                        Next::First | Next::Value => self.add(&mut now, Form::Text(inner)),
                        Next::Colon | Next::Comma => return Err("a text stands out of place"),
                    }
                }
                (_, Next::First | Next::Value) => {
                    size = word_size(rest);
                    if !is_word(&rest[..size]) {
                        return Err("a value is of unknown form");
                    }
                    self.add(&mut now, Form::Word(&rest[..size]));
                }
                _ => return Err("something stands out of place"),
            }
            rest = &rest[size..];
        }
        match (&now.nodes[..], around.is_empty()) {
            (&[node], true) => Ok(node),
            (_, true) => Err("it is empty"),
            (_, false) => Err("a list or record does not end"),
        }
    }

    fn add(&mut self, to: &mut Open<'t>, form: Form<'t>) {
        self.forms.push(form);
        to.nodes.push(Node(self.forms.len() - 1));
        to.next = Next::Comma;
    }

    pub fn text(&self, node: Node) -> Option<&'t str> {
        match &self.forms[node.0] {
            Form::Text(text) => Some(text),
            _ => None,
        }
    }

    pub fn is_true(&self, node: Node) -> Option<bool> {
        match &self.forms[node.0] {
            Form::Word("true") => Some(true),
            Form::Word("false") => Some(false),
            _ => None,
        }
    }

    pub fn members(&self, node: Node) -> Option<&[Node]> {
        match &self.forms[node.0] {
            Form::List(list) => Some(list),
            _ => None,
        }
    }

    /// The fields of a record that has just these, in this order.
    pub fn fields<const N: usize>(&self, node: Node, names: [&str; N]) -> Option<[Node; N]> {
        let Form::Record(members) = &self.forms[node.0] else { return None };
        let has_these = members.iter().map(|(name, _)| *name).eq(names);
        let nodes: Vec<Node> = members.iter().map(|&(_, node)| node).collect();
        if has_these {
            nodes.try_into().ok()
        } else {
            None
        }
    }

    /// A constructor and its arguments: one without any is a text alone, another a record of
    /// its name alone, before the list of its arguments or its only one.
    pub fn applied(&self, node: Node) -> Option<(&'t str, &[Node])> {
        match &self.forms[node.0] {
            Form::Text(text) => Some((text, &[])),
            Form::Record(members) => {
                let [(name, argument)] = &members[..] else { return None };
                let arguments = self.members(*argument);
                Some((name, arguments.unwrap_or(slice::from_ref(argument))))
            }
            _ => None,
        }
    }
}

/// How many bytes stand before the quote that ends a text.
fn text_size(text: &str) -> Option<usize> {
    let mut is_escaped = false;
    for (at, byte) in text.bytes().enumerate() {
        match byte {
            b'"' if !is_escaped => return Some(at),
            b'\\' => is_escaped = !is_escaped,
            _ => is_escaped = false,
        }
    }
    None
}

fn word_size(text: &str) -> usize {
    let ends = |c: char| c.is_whitespace() || "[]{},:\"".contains(c);
    text.find(ends).unwrap_or(text.len())
}

fn is_word(word: &str) -> bool {
    let is_number = word.starts_with(|c: char| c == '-' || c.is_ascii_digit())
        && word.ends_with(|c: char| c.is_ascii_digit())
        && word.chars().all(|c| c.is_ascii_digit() || "+-.eE".contains(c));
    is_number || matches!(word, "true" | "false" | "null")
}
