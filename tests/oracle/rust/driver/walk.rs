//! The number of edges followed, which the Rust doesn't give. Written from documents 01 and 02 alone,
//! with an explicit stack, and independent of the Rust's search: the driver compares the loops found
//! here with the Rust's as well, and with those of its amended copy.
use std::collections::{BTreeMap, BTreeSet};

use ol_ir::*;

pub struct Walked {
    /// The names of the first loop, its first name again at the end.
    pub path: Option<Vec<String>>,
    /// Looks from a name to a successor.
    pub looks: u64,
}

type Graph<'a> = BTreeMap<&'a str, BTreeSet<&'a str>>;

/// Whose graph is walked.
#[derive(Clone, Copy, PartialEq)]
pub enum Rule {
    /// The Rust's and document 01's: names in the body of an arrow are not read, functions are not searched.
    Rust,
    /// Request 2.6: they are.
    Amended,
}

/// The names that an expression reads in the same instant: none under `pre`; the clocks of `when`
/// and `merge` are read.
fn reads<'a>(rhs: &'a Expr, rule: Rule, out: &mut BTreeSet<&'a str>) {
    let mut stack = vec![rhs];
    while let Some(e) = stack.pop() {
        match e {
            Expr::Const { .. } | Expr::Pre { .. } => {}
            Expr::Var { name } => {
                out.insert(name);
            }
            Expr::Arrow { init, body } => {
                stack.push(init);
                if rule == Rule::Amended {
                    stack.push(body);
                }
            }
            Expr::When { arg, clock, .. } => {
                out.insert(clock);
                stack.push(arg);
            }
            Expr::Merge { clock, on_true, on_false } => {
                out.insert(clock);
                stack.extend([&**on_true, &**on_false]);
            }
            Expr::Unary { arg, .. } | Expr::Cast { arg, .. } | Expr::Field { base: arg, .. } => {
                stack.push(arg)
            }
            Expr::Binary { lhs, rhs, .. } => stack.extend([&**lhs, &**rhs]),
            Expr::Index { base, index } => stack.extend([&**base, &**index]),
            Expr::IfThenElse { cond, then_branch, else_branch } => {
                stack.extend([&**cond, &**then_branch, &**else_branch])
            }
            Expr::Call { args: items, .. } | Expr::Tuple { items } | Expr::Array { items } => {
                stack.extend(items)
            }
            Expr::Struct { fields, .. } => stack.extend(fields.iter().map(|f| &f.value)),
            Expr::Iterate { init, arrays, .. } => {
                stack.extend(arrays);
                stack.extend(init.as_deref());
            }
        }
    }
}

/// The search of one node; an imported node is not searched.
pub fn walk(node: &NodeDef, rule: Rule) -> Walked {
    let searched = match node.kind {
        NodeKind::Operator => true,
        NodeKind::Function => rule == Rule::Amended,
        NodeKind::Imported => false,
    };
    let mut graph: Graph = BTreeMap::new();
    if searched {
        for eq in &node.equations {
            for name in &eq.lhs {
                reads(&eq.rhs, rule, graph.entry(name).or_default());
            }
        }
    }
    let walked = search(&graph);
    let edges: usize = graph.values().map(BTreeSet::len).sum();
    assert!(walked.looks <= edges as u64, "more looks than edges");
    walked
}

/// Names are tried in byte order; one that is cleared is not entered again.
fn search(graph: &Graph) -> Walked {
    let mut cleared = BTreeSet::new();
    let mut looks = 0;
    for start in graph.keys() {
        if !cleared.contains(start) {
            if let Some(path) = from(start, graph, &mut cleared, &mut looks) {
                return Walked { path: Some(path), looks };
            }
        }
    }
    Walked { path: None, looks }
}

/// From one name: the stack holds the names on the path, each with its successors still to look at.
fn from<'a>(
    start: &'a str,
    graph: &Graph<'a>,
    cleared: &mut BTreeSet<&'a str>,
    looks: &mut u64,
) -> Option<Vec<String>> {
    let left = |name: &str| graph.get(name).map(|s| s.iter().rev().copied().collect()).unwrap_or_default();
    let mut stack: Vec<(&str, Vec<&str>)> = vec![(start, left(start))];
    while let Some((name, rest)) = stack.last_mut() {
        let Some(next) = rest.pop() else {
            cleared.insert(*name);
            stack.pop();
            continue;
        };
        *looks += 1;
        if let Some(at) = stack.iter().position(|(n, _)| *n == next) {
            let mut path: Vec<String> = stack[at..].iter().map(|(n, _)| n.to_string()).collect();
            path.push(next.to_string());
            return Some(path);
        }
        if !cleared.contains(next) {
            stack.push((next, left(next)));
        }
    }
    None
}
