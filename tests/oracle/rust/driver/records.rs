//! A model as records (document 01): kinds, words and the text of the names; and how a project is
//! written as records.
use std::collections::{BTreeMap, BTreeSet};

use ol_ir::*;

#[derive(Clone, PartialEq, Eq)]
pub struct Model {
    pub kinds: Vec<u8>,
    pub words: Vec<u64>,
    pub text: Vec<u8>,
}

/// The record kind of a basic type, or none for arrays and named types.
pub fn basic_kind(ty: &Type) -> Option<u8> {
    BASIC.iter().position(|b| b == ty).map(|i| 20 + i as u8)
}

pub const BASIC: [Type; 12] = [
    Type::Bool,
    Type::Int8,
    Type::Int16,
    Type::Int32,
    Type::Int64,
    Type::Uint8,
    Type::Uint16,
    Type::Uint32,
    Type::Uint64,
    Type::Float32,
    Type::Float64,
    Type::Char,
];

pub const BINARY: [BinOp; 20] = [
    BinOp::And,
    BinOp::Or,
    BinOp::Xor,
    BinOp::Implies,
    BinOp::Eq,
    BinOp::Neq,
    BinOp::Lt,
    BinOp::Le,
    BinOp::Gt,
    BinOp::Ge,
    BinOp::Add,
    BinOp::Sub,
    BinOp::Mul,
    BinOp::Div,
    BinOp::Mod,
    BinOp::BitAnd,
    BinOp::BitOr,
    BinOp::BitXor,
    BinOp::Shl,
    BinOp::Shr,
];

pub fn binary_kind(op: BinOp) -> u8 {
    47 + BINARY.iter().position(|b| *b == op).unwrap() as u8
}

/// The record kind of an iterator.
pub fn iterator_kind(kind: IterKind, seeded: bool) -> u8 {
    match kind {
        IterKind::Map => 80 + seeded as u8,
        IterKind::Fold => 82 + seeded as u8,
    }
}

/// Writes a project as records, with the numbers of its names. A first run with no numbers collects
/// the names.
struct Writer {
    numbers: BTreeMap<String, u64>,
    seen: BTreeSet<String>,
    kinds: Vec<u8>,
    words: Vec<u64>,
}

/// The records of a project, with these further names in the text.
pub fn write(project: &Project, unused: &[String]) -> Model {
    let mut first = Writer::new(BTreeMap::new());
    first.project(project);
    first.seen.extend(unused.iter().cloned());
    let names: Vec<String> = first.seen.into_iter().collect();
    let numbers = names.iter().cloned().zip(0..).collect();
    let mut second = Writer::new(numbers);
    second.project(project);
    Model { kinds: second.kinds, words: second.words, text: text_of(&names) }
}

pub fn text_of(names: &[String]) -> Vec<u8> {
    let mut text = Vec::new();
    for n in names {
        text.extend_from_slice(n.as_bytes());
        text.push(0);
    }
    text
}

impl Writer {
    fn new(numbers: BTreeMap<String, u64>) -> Self {
        Writer { numbers, seen: BTreeSet::new(), kinds: Vec::new(), words: Vec::new() }
    }

    fn put(&mut self, kind: u8, word: u64) {
        self.kinds.push(kind);
        self.words.push(word);
    }

    fn named(&mut self, kind: u8, name: &str) {
        self.seen.insert(name.to_string());
        let number = self.numbers.get(name).copied().unwrap_or(0);
        self.put(kind, number);
    }

    fn list<T>(&mut self, items: &[T], mut item: impl FnMut(&mut Self, &T)) {
        self.put(3, items.len() as u64);
        for i in items {
            item(self, i);
        }
    }

    fn names(&mut self, names: &[String]) {
        self.list(names, |w, n| w.named(8, n));
    }

    fn with_type(&mut self, kind: u8, name: &str, ty: &Type) {
        self.named(kind, name);
        self.typ(ty);
    }

    fn port(&mut self, name: &str, ty: &Type) {
        self.with_type(7, name, ty);
    }

    fn project(&mut self, p: &Project) {
        self.put(1, p.packages.len() as u64);
        for pkg in &p.packages {
            self.named(2, &pkg.name);
            self.list(&pkg.types, |w, t| w.declaration(&t.body));
            self.list(&pkg.constants, |w, c| {
                w.with_type(9, &c.name, &c.ty);
                w.expr(&c.value);
            });
            self.list(&pkg.nodes, |w, n| w.node(n));
        }
    }

    fn declaration(&mut self, body: &TypeBody) {
        match body {
            TypeBody::Alias { name, target } => self.with_type(4, name, target),
            TypeBody::Record { name, fields } => {
                self.named(5, name);
                self.list(fields, |w, f| w.port(&f.name, &f.ty));
            }
            TypeBody::Enum(e) => {
                self.named(6, &e.name);
                self.names(&e.variants);
            }
        }
    }

    fn node(&mut self, n: &NodeDef) {
        let kind = match n.kind {
            NodeKind::Function => 10,
            NodeKind::Operator => 11,
            NodeKind::Imported => 12,
        };
        self.named(kind, &n.name);
        self.list(&n.inputs, |w, p| w.port(&p.name, &p.ty));
        self.list(&n.outputs, |w, p| w.port(&p.name, &p.ty));
        self.list(&n.locals, |w, l| w.port(&l.name, &l.ty));
        self.list(&n.equations, |w, q| {
            w.put(13, 0);
            w.names(&q.lhs);
            w.expr(&q.rhs);
        });
        self.list(&n.probes, |w, p| w.named(8, &p.var));
    }

    fn typ(&mut self, ty: &Type) {
        match ty {
            Type::Array { elem, len } => {
                self.put(32, u64::from(*len));
                self.typ(elem);
            }
            Type::Named { name } => self.named(33, name),
            basic => self.put(basic_kind(basic).unwrap(), 0),
        }
    }

    fn literal(&mut self, lit: &Literal) {
        match lit {
            Literal::Bool { value } => self.put(40, u64::from(*value)),
            Literal::Int { value } => self.put(41, *value as u64),
            Literal::Float { value } => self.put(42, value.to_bits()),
            Literal::Char { value } => self.put(43, u64::from(*value)),
        }
    }

    fn all(&mut self, items: &[&Expr]) {
        for i in items {
            self.expr(i);
        }
    }

    fn plain(&mut self, kind: u8, operands: &[&Expr]) {
        self.put(kind, 0);
        self.all(operands);
    }

    fn with_name(&mut self, kind: u8, name: &str, operands: &[&Expr]) {
        self.named(kind, name);
        self.all(operands);
    }

    fn counted(&mut self, kind: u8, items: &[Expr]) {
        self.put(kind, items.len() as u64);
        for i in items {
            self.expr(i);
        }
    }

    fn expr(&mut self, e: &Expr) {
        match e {
            Expr::Const { lit } => self.literal(lit),
            Expr::Var { name } => self.named(44, name),
            Expr::Unary { op: UnaryOp::Not, arg } => self.plain(45, &[arg]),
            Expr::Unary { op: UnaryOp::Neg, arg } => self.plain(46, &[arg]),
            Expr::Binary { op, lhs, rhs } => self.plain(binary_kind(*op), &[lhs, rhs]),
            Expr::IfThenElse { cond, then_branch, else_branch } => {
                self.plain(67, &[cond, then_branch, else_branch])
            }
            Expr::Pre { arg } => self.plain(68, &[arg]),
            Expr::Arrow { init, body } => self.plain(69, &[init, body]),
            Expr::Call { node, args } => {
                self.named(70, node);
                self.list(args, |w, a| w.expr(a));
            }
            Expr::Field { base, field } => self.with_name(71, field, &[base]),
            Expr::Index { base, index } => self.plain(72, &[base, index]),
            Expr::Tuple { items } => self.counted(73, items),
            Expr::Array { items } => self.counted(74, items),
            Expr::Struct { ty, fields } => {
                self.named(75, ty);
                self.list(fields, |w, f| w.with_name(84, &f.field, &[&f.value]));
            }
            Expr::Cast { to, arg } => {
                self.put(76, 0);
                self.typ(to);
                self.expr(arg);
            }
            Expr::When { arg, clock, on } => self.with_name(if *on { 77 } else { 78 }, clock, &[arg]),
            Expr::Merge { clock, on_true, on_false } => self.with_name(79, clock, &[on_true, on_false]),
            Expr::Iterate { kind, node, init, arrays } => {
                self.named(iterator_kind(*kind, init.is_some()), node);
                if let Some(seed) = init {
                    self.expr(seed);
                }
                self.list(arrays, |w, a| w.expr(a));
            }
        }
    }
}
