//! The lines of document 01 out of the Rust's diagnostics.
//!
//! Code, severity, equation and order are those of the unchanged checker. Names are read from its
//! messages. It gives places by name only and no steps: these come from the marked copy, whose
//! diagnostics must equal the unchanged one's but for one added context string (rust/mark.rs). The
//! string holds the addresses of the declaration and of the expression at hand; this file
//! knows which declaration and which record stands at an address, and that the Rust's own context
//! string names the same declaration. E0008 has no declaration at hand: its place is the last alias
//! of the name, as document 01 says.
//!
//! The amended copy is the marked one with the requests of document 02 in it. The two must be equal in
//! all that no request lets differ: for request 2.10, the typing of the right-hand sides and constant
//! values in which the marked copy makes an Int32 of an integer that doesn't fit one; for request 2.8,
//! of those that hold a tuple or a call with several outputs.
use std::collections::{HashMap, HashSet};

use ol_ir::*;

use crate::walk::{walk, Rule};

pub const NONE: u64 = u64::MAX;
const PACKAGE: u64 = 0;
const ENUM: u64 = 1;
const TYPE: u64 = 2;
const CONSTANT: u64 = 3;
const NODE: u64 = 4;

#[derive(Clone, Debug, PartialEq, Eq)]
pub struct Line {
    pub code: u64,
    pub place: u64,
    pub number: u64,
    pub equation: u64,
    pub step: u64,
    pub name: u64,
    pub warning: bool,
}

#[derive(Clone, Debug, PartialEq, Eq)]
pub struct Report {
    pub lines: Vec<Line>,
    pub followed: u64,
    /// For each line, the line of the Rust that added it.
    pub sources: Vec<u32>,
}

/// What stands at which address.
#[derive(Default)]
struct Places {
    /// place kind, place number, context string of the Rust
    declarations: HashMap<usize, (u64, u64, String)>,
    steps: HashMap<usize, u64>,
    aliases: HashMap<String, u64>,
    /// of each expression the right-hand side or constant value that it stands in
    sides: HashMap<usize, Side>,
}

/// A right-hand side or a constant value: place kind, place number, equation.
type Side = (u64, u64, u64);

fn address<T>(x: &T) -> usize {
    x as *const T as usize
}

impl Places {
    fn of(project: &Project) -> Self {
        let mut places = Places::default();
        let (mut types, mut constants, mut nodes) = (0, 0, 0);
        for (i, pkg) in project.packages.iter().enumerate() {
            places.declare(pkg, PACKAGE, i as u64, format!("package {}", pkg.name));
            for t in &pkg.types {
                let context = format!("enum {} in package {}", t.name(), pkg.name);
                places.declare(t, ENUM, types, context);
                if let TypeBody::Alias { name, .. } = &t.body {
                    places.aliases.insert(name.clone(), types);
                }
                types += 1;
            }
            for c in &pkg.constants {
                places.declare(c, CONSTANT, constants, format!("constant {}", c.name));
                places.side(&c.value, (CONSTANT, constants, NONE));
                constants += 1;
            }
            for n in &pkg.nodes {
                places.declare(n, NODE, nodes, format!("node {}", n.name));
                for (i, eq) in n.equations.iter().enumerate() {
                    places.side(&eq.rhs, (NODE, nodes, i as u64));
                }
                nodes += 1;
            }
        }
        places
    }

    fn declare<T>(&mut self, x: &T, kind: u64, number: u64, context: String) {
        let before = self.declarations.insert(address(x), (kind, number, context));
        assert!(before.is_none(), "two declarations at one address");
    }

    fn side(&mut self, e: &Expr, side: Side) {
        e.visit(|x| drop(self.sides.insert(address(x), side)));
        self.number(e, &mut 0);
    }

    /// Numbers the records of an expression from its start: lists, field values and the types of
    /// casts are records too.
    fn number(&mut self, e: &Expr, at: &mut u64) {
        let before = self.steps.insert(address(e), *at);
        assert!(before.is_none(), "two expressions at one address");
        *at += 1;
        match e {
            Expr::Const { .. } | Expr::Var { .. } => {}
            Expr::Unary { arg, .. } | Expr::Pre { arg } => self.number(arg, at),
            Expr::Field { base: arg, .. } | Expr::When { arg, .. } => self.number(arg, at),
            Expr::Cast { to, arg } => {
                *at += type_records(to);
                self.number(arg, at);
            }
            Expr::Binary { lhs: a, rhs: b, .. }
            | Expr::Arrow { init: a, body: b }
            | Expr::Index { base: a, index: b }
            | Expr::Merge { on_true: a, on_false: b, .. } => {
                self.number(a, at);
                self.number(b, at);
            }
            Expr::IfThenElse { cond, then_branch, else_branch } => {
                self.number(cond, at);
                self.number(then_branch, at);
                self.number(else_branch, at);
            }
            Expr::Tuple { items } | Expr::Array { items } => self.all(items, at),
            Expr::Call { args, .. } => self.list(args, at),
            Expr::Struct { fields, .. } => {
                *at += 1;
                for f in fields {
                    *at += 1;
                    self.number(&f.value, at);
                }
            }
            Expr::Iterate { init, arrays, .. } => {
                if let Some(seed) = init {
                    self.number(seed, at);
                }
                self.list(arrays, at);
            }
        }
    }

    fn list(&mut self, items: &[Expr], at: &mut u64) {
        *at += 1;
        self.all(items, at);
    }

    fn all(&mut self, items: &[Expr], at: &mut u64) {
        for i in items {
            self.number(i, at);
        }
    }
}

fn type_records(ty: &Type) -> u64 {
    match ty {
        Type::Array { elem, .. } => 1 + type_records(elem),
        _ => 1,
    }
}

/// Takes the mark off a diagnostic: the place, the expression, the line of the source.
fn unmark(d: &mut Diagnostic) -> (usize, usize, u32) {
    let mark = d.context.pop().expect("a context string");
    let parts: Vec<&str> = mark.split(' ').collect();
    assert!(parts.len() == 4 && parts[0] == "mark", "no mark: {mark}");
    let number = |i: usize| parts[i].parse::<usize>().expect("a number");
    (number(1), number(2), number(3) as u32)
}

/// The nodes whose E0060 request 2.6 lets differ from the Rust's: functions, and operators that hold
/// an arrow.
fn differs(node: &NodeDef) -> bool {
    let mut arrow = false;
    for eq in &node.equations {
        eq.rhs.visit(|e| arrow |= matches!(e, Expr::Arrow { .. }));
    }
    match node.kind {
        NodeKind::Function => true,
        NodeKind::Operator => arrow,
        NodeKind::Imported => false,
    }
}

/// What the requests let differ.
struct Free {
    /// nodes, by address, whose E0060 may
    loops: HashSet<usize>,
    /// where the lines of typing may
    typing: HashSet<Side>,
}

impl Free {
    fn has(&self, d: &Diagnostic, places: &Places) -> bool {
        let mut d = d.clone();
        let mark = unmark(&mut d);
        let line = place_of(&d, &mark, places);
        match line.code {
            60 => self.loops.contains(&mark.0),
            5 | 40..=43 | 80..=131 | 140..=145 => self.typing.contains(&(line.place, line.number, line.equation)),
            _ => false,
        }
    }

    /// The marked diagnostics that may not differ.
    fn rest(&self, marked: &[Diagnostic], places: &Places) -> Vec<Diagnostic> {
        marked.iter().filter(|d| !self.has(d, places)).cloned().collect()
    }
}

/// The right-hand sides and constant values that hold a tuple or a call with several outputs.
fn tuples_in(project: &Project, places: &Places) -> HashSet<Side> {
    let outputs: HashMap<&str, usize> = project.all_nodes().map(|n| (n.name.as_str(), n.outputs.len())).collect();
    let mut sides = HashSet::new();
    let mut look = |e: &Expr| {
        let tuple = match e {
            Expr::Tuple { .. } => true,
            Expr::Call { node, .. } => outputs.get(node.as_str()).map_or(false, |n| *n > 1),
            _ => false,
        };
        if tuple {
            sides.insert(places.sides[&address(e)]);
        }
    };
    for pkg in &project.packages {
        pkg.constants.iter().for_each(|c| c.value.visit(&mut look));
        pkg.nodes.iter().flat_map(|n| &n.equations).for_each(|eq| eq.rhs.visit(&mut look));
    }
    sides
}

/// Holds the E0095 of the amended copy to the integers of which the marked copy makes an Int32 that
/// doesn't hold them: in each right-hand side or constant value without tuples the first is the same.
/// (Behind it the amended copy may go on where the marked one stops, after a fold's seed.) Gives the
/// sides where there is one, and those with tuples.
fn typing_differs(taken: &[(i64, usize)], amended: &[Diagnostic], places: &Places, tuples: HashSet<Side>) -> HashSet<Side> {
    let firsts = |all: &mut dyn Iterator<Item = usize>| {
        let mut firsts = HashMap::new();
        all.filter(|at| !tuples.contains(&places.sides[at]))
            .for_each(|at| drop(firsts.entry(places.sides[&at]).or_insert(at)));
        firsts
    };
    let large = |(value, at): &(i64, usize)| i32::try_from(*value).is_err().then_some(*at);
    let met = firsts(&mut taken.iter().filter_map(large));
    let shown = amended.iter().filter(|d| d.code == "E0095").map(|d| unmark(&mut d.clone()).1);
    assert_eq!(met, firsts(&mut { shown }), "E0095 is not where the Rust's Int32 doesn't hold an integer");
    met.into_keys().chain(tuples.iter().copied()).collect()
}

/// The names of the loop that each node is shown.
fn loops_of(marked: &[Diagnostic], nodes: &[&NodeDef]) -> Vec<Option<Vec<String>>> {
    let mut loops = vec![None; nodes.len()];
    for d in marked.iter().filter(|d| d.code == "E0060") {
        let at = unmark(&mut d.clone()).0;
        let i = nodes.iter().position(|n| address(*n) == at).expect("a node");
        assert!(loops[i].is_none(), "two loops in a node");
        loops[i] = Some(loop_names(&d.message));
    }
    loops
}

/// The diagnostics with their marks, of the marked copy or of the amended one, which are held to the
/// unchanged checker and to each other.
fn diagnostics(project: &Project, nodes: &[&NodeDef], places: &Places, rule: Rule) -> Vec<Diagnostic> {
    let plain = ol_typecheck::check_project(project).diagnostics;
    ol_marked::mark::taken();
    let marked = ol_marked::check_project(project).diagnostics;
    let taken = ol_marked::mark::taken();
    let amended = ol_amended::check_project(project).diagnostics;
    let loops = nodes.iter().filter(|n| differs(n)).map(|n| address(*n)).collect();
    let free = Free { loops, typing: typing_differs(&taken, &amended, places, tuples_in(project, places)) };
    assert_eq!(free.rest(&marked, places), free.rest(&amended, places), "more differs than the requests say");
    for (rule, found) in [(Rule::Rust, &marked), (Rule::Amended, &amended)] {
        let walked: Vec<_> = nodes.iter().map(|n| walk(n, rule).path).collect();
        assert_eq!(loops_of(found, nodes), walked, "the walk's loops differ from the Rust's");
    }
    let mut unmarked = marked.clone();
    unmarked.iter_mut().for_each(|d| drop(unmark(d)));
    assert_eq!(plain, unmarked, "the marked copy differs from the unchanged checker");
    match rule {
        Rule::Rust => marked,
        Rule::Amended => amended,
    }
}

/// The report on a project whose names have the numbers given: the Rust's, or that with the requests of
/// document 02. No name holds a space.
pub fn report(project: &Project, numbers: &HashMap<String, u64>, rule: Rule) -> Report {
    let nodes: Vec<&NodeDef> = project.all_nodes().collect();
    let places = Places::of(project);
    let followed = nodes.iter().map(|n| walk(n, rule).looks).sum();
    let mut report = Report { lines: vec![], followed, sources: vec![] };
    for mut d in diagnostics(project, &nodes, &places, rule) {
        let mark = unmark(&mut d);
        let line = place_of(&d, &mark, &places);
        let mut add = |line| {
            report.lines.push(line);
            report.sources.push(mark.2);
        };
        let number = |name: &str| *numbers.get(name).expect("a name of the model");
        if line.code == 60 {
            for (i, name) in loop_names(&d.message).iter().enumerate() {
                add(Line { step: i as u64, name: number(name), ..line.clone() });
            }
        } else {
            let name = name_in(&d, &line, &nodes).map_or(NONE, |n| number(&n));
            add(Line { name, ..line });
        }
    }
    report
}

/// Code, severity, place, equation and step of a diagnostic.
fn place_of(d: &Diagnostic, mark: &(usize, usize, u32), places: &Places) -> Line {
    let code: u64 = d.code[1..].parse().expect("a number after the letter");
    assert_eq!(d.context.len(), 1, "one context string");
    let context = d.context[0].as_str();
    let (place, number, own) = if code == 8 {
        let alias = context.strip_prefix("type ").expect("an alias");
        (TYPE, places.aliases[alias], context)
    } else {
        let (place, number, own) = &places.declarations[&mark.0];
        (*place, *number, own.as_str())
    };
    let rest = context.strip_prefix(own).expect("the context of the declaration");
    let equation = match rest.strip_prefix(" · equation ") {
        Some(i) if place == NODE => i.parse().expect("an equation's number"),
        _ => {
            assert_eq!(rest, "", "nothing after the context of a declaration");
            NONE
        }
    };
    let step = if mark.1 == 0 { NONE } else { places.steps[&mark.1] };
    assert_eq!(step != NONE, has_step(code), "step of {}", d.code);
    assert_eq!(&d.code[..1], if code == 51 { "W" } else { "E" });
    let warning = matches!(d.severity, Severity::Warning);
    assert!(warning || matches!(d.severity, Severity::Error));
    Line { code, place, number, equation, step, name: NONE, warning }
}

/// Codes of inference, of `pre` without initial value and of nested iterators.
fn has_step(code: u64) -> bool {
    matches!(code, 70 | 80..=131 | 140..=146)
}

fn loop_names(message: &str) -> Vec<String> {
    let list = message.strip_prefix("combinational cycle without a temporal break: ").expect("a loop");
    list.split(" -> ").map(String::from).collect()
}

/// The text between the first occurrences of two pieces of a message.
fn between(message: &str, before: &str, after: &str) -> String {
    let start = message.find(before).unwrap_or_else(|| panic!("{before} in {message}")) + before.len();
    let rest = &message[start..];
    let end = if after.is_empty() { rest.len() } else { rest.find(after).expect("the end of a name") };
    rest[..end].to_string()
}

/// The name of a line, by document 01's rule, out of the message. Names hold no spaces, so a piece
/// with a space in it is found where the message has it.
fn name_in(d: &Diagnostic, line: &Line, nodes: &[&NodeDef]) -> Option<String> {
    let m = d.message.as_str();
    let last = |before: &str| {
        let rest = between(m, before, "");
        Some(rest.strip_suffix('`').expect("a closing quote").to_string())
    };
    let inner = |before: &str, after: &str| Some(between(m, before, after));
    match line.code {
        2 | 4 | 30 | 41 | 42 | 70 | 81..=87 | 90..=95 | 110 | 111 | 123 | 124 | 131 | 143..=146 => None,
        1 => last("duplicate node name `"),
        3 => last("duplicate constant `"),
        5 => inner("constant `", "` declared as "),
        6 => last("duplicate type name `"),
        7 => last("duplicate enum variant `"),
        8 => inner("type alias `", "` is recursive "),
        10 => last("duplicate input `"),
        11 => inner("output `", "` shadows "),
        12 => inner("local `", "` shadows "),
        20 => last("equation defines unknown name `"),
        21 => inner("name `", "` is assigned "),
        22 => last("equation assigns input `"),
        40 => inner("equation `", " = ...` has type "),
        43 => inner("name `", "` is not of "),
        50 => inner("output `", "` is never "),
        51 => inner("local `", "` is declared "),
        80 => last("unknown identifier `"),
        100 => last("call to unknown node `"),
        101 => {
            let caller = if line.place == NODE { nodes[line.number as usize].name.as_str() } else { "<consts>" };
            last(&format!("function `{caller}` cannot call stateful operator `"))
        }
        102 => inner("call to `", "` expects "),
        103 => inner("call to `", "`: argument "),
        120 => last("` has no field `"),
        121 => inner("cannot access field `", "`: `"),
        122 => inner("cannot access field `", "` on type "),
        125 => inner("`", "` is not a struct type, so "),
        126 => last("` has no field `"),
        127 => inner("` field `", "` expects "),
        128 => last("` literal is missing field `"),
        130 => inner("clock `", "` must be bool"),
        140 => last(" calls unknown function `"),
        141 => inner(" requires a stateless `function`, but `", "` is a "),
        142 => inner("'s function `", "` must have "),
        150 => last("log message references unknown variable `"),
        _ => panic!("{} is not expected", d.code),
    }
}
