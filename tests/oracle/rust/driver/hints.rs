//! Models about hints: short trees of the constructs that hand hints on, make them or drop them,
//! over few ports and many literals. Whether such a tree is typed depends on each hint.
use ol_ir::*;

use crate::express::{array, ends};
use crate::records::BINARY;
use crate::rng::Rng;
use crate::special::{alias, node, package, port};

struct Hints<'a> {
    rng: &'a mut Rng,
    /// what the alias of x stands for, and the type of y
    target: Type,
    other: Type,
}

const USUAL: [Type; 8] = [
    Type::Int8,
    Type::Uint8,
    Type::Uint16,
    Type::Int64,
    Type::Float32,
    Type::Float32,
    Type::Uint64,
    Type::Uint32,
];

/// A node with ports x of an alias, y of a numeric type, c Bool and v an array, and three to seven
/// equations over them.
pub fn hints(rng: &mut Rng) -> Project {
    let target = rng.pick(&USUAL).clone();
    let other = if rng.percent(60) { target.clone() } else { rng.pick(&USUAL).clone() };
    let named = Type::named("A");
    let elem = if rng.percent(50) { named.clone() } else { other.clone() };
    let len = rng.range(0, 2) as u32;
    let mut types = vec![alias("A", target.clone()), alias("V", array(elem.clone(), len))];
    if rng.percent(35) {
        let field = |name: &str, ty: &Type| RecordField { name: name.into(), ty: ty.clone() };
        let fields = vec![field("u", &named), field("v", &Type::named("V"))];
        types.push(TypeDecl { body: TypeBody::Record { name: "R".into(), fields } });
    }
    let mut c = Type::Bool;
    if rng.percent(30) {
        types.push(alias("C", c));
        c = Type::named("C");
    }
    let v = if rng.percent(50) { Type::named("V") } else { array(elem.clone(), len) };
    let results = [named.clone(), other.clone(), Type::Bool, v.clone(), Type::Int32];
    let mut make = Hints { rng, target, other };
    let mut nodes = vec![make.under_test(&results, [&named, &c, &v])];
    if make.rng.percent(50) {
        nodes.push(make.helper(&[named, make.other.clone(), Type::Int32], &elem));
    }
    let mut constants = vec![];
    if make.rng.percent(20) {
        let ty = make.rng.pick(&results).clone();
        constants.push(ConstantDef { name: "k".into(), ty, value: make.tree(1) });
    }
    Project { packages: vec![package(types, constants, nodes)] }
}

impl Hints<'_> {
    fn under_test(&mut self, results: &[Type], [x, c, v]: [&Type; 3]) -> NodeDef {
        let inputs = vec![port("x", x), port("y", &self.other), port("c", c), port("v", v)];
        let kind = if self.rng.percent(80) { NodeKind::Operator } else { NodeKind::Function };
        let mut n = node("n", kind, inputs, vec![]);
        for i in 0..self.rng.range(3, 7) {
            let name = ["l", "m", "n", "o", "p", "q", "r"][i];
            n.outputs.push(port(name, self.rng.pick(results)));
            let rhs = if self.rng.percent(65) { self.pattern() } else { self.tree(1) };
            n.equations.push(Equation { lhs: vec![name.into()], rhs });
        }
        if self.rng.percent(25) {
            let names = n.outputs.iter().map(|p| p.name.clone()).collect();
            let rhs = self.tree(1);
            n.equations.push(Equation { lhs: names, rhs });
        }
        n
    }

    /// A function f to call, map and fold: its first input is the accumulator, its second mostly an
    /// element.
    fn helper(&mut self, firsts: &[Type], elem: &Type) -> NodeDef {
        let first = self.rng.pick(firsts).clone();
        let second = if self.rng.percent(75) { elem.clone() } else { self.rng.pick(firsts).clone() };
        let out = if self.rng.percent(80) { first.clone() } else { second.clone() };
        let inputs = vec![port("a", &first), port("b", &second)];
        let mut f = node("f", NodeKind::Function, inputs, vec![port("z", &out)]);
        f.equations.push(Equation { lhs: vec!["z".into()], rhs: Expr::var("a") });
        f
    }

    fn number(&mut self) -> Expr {
        let float = self.rng.percent(if self.other.is_float() { 60 } else { 8 });
        match self.rng.below(10) {
            _ if float => Expr::Const { lit: Literal::float(1.5) },
            0 => Expr::int_lit(*self.rng.pick(&[200, -1, 70_000, 3_000_000_000])),
            1 => Expr::neg(Expr::int_lit(*self.rng.pick(&[1, 128, 129]))),
            2 | 3 => self.end(),
            _ => Expr::int_lit(1),
        }
    }

    /// A number at an end of a type, or the next beyond it.
    fn end(&mut self) -> Expr {
        let of = if self.rng.percent(50) { &self.target } else { &self.other };
        let (low, high) = ends(of);
        match *self.rng.pick(&[low, low.saturating_sub(1), high, high.saturating_add(1)]) {
            n if n < 0 && n > i64::MIN => Expr::neg(Expr::int_lit(-n)),
            n => Expr::int_lit(n),
        }
    }

    fn leaf(&mut self) -> Expr {
        match self.rng.weighted(&[44, 20, 16, 4, 7, 7, 2]) {
            0 => self.number(),
            1 => Expr::var("x"),
            2 => Expr::var("y"),
            3 => Expr::var("c"),
            4 => Expr::var("v"),
            5 => Expr::array(vec![]),
            _ => Expr::Tuple { items: vec![] },
        }
    }

    /// An operand that gets no hint: mostly more than a leaf, else nothing depends on it.
    fn unhinted(&mut self, level: usize) -> Expr {
        if level < 4 && self.rng.percent(75) {
            self.construct(level)
        } else {
            self.tree(level)
        }
    }

    fn bx(&mut self, level: usize) -> Box<Expr> {
        Box::new(self.tree(level))
    }

    fn cond(&mut self, level: usize) -> Expr {
        match self.rng.below(6) {
            0 => self.tree(level),
            1 => Expr::bool_lit(true),
            _ => Expr::var("c"),
        }
    }

    fn tree(&mut self, level: usize) -> Expr {
        if level > 3 || (level > 1 && self.rng.percent(72)) {
            self.leaf()
        } else {
            self.construct(level)
        }
    }

    fn construct(&mut self, level: usize) -> Expr {
        let next = level + 1;
        match self.rng.weighted(&[34, 14, 7, 7, 5, 3, 5, 9, 7, 9, 7, 5, 3, 4]) {
            0 => {
                let class = self.rng.pick(&[0..4, 4..6, 6..10, 10..15, 15..20]).clone();
                let op = *self.rng.pick(&BINARY[class]);
                let lhs = if self.rng.percent(30) { self.mixed() } else { self.tree(next) };
                Expr::bin(op, lhs, self.tree(next))
            }
            1 => {
                let (c, a) = (self.cond(next), self.tree(next));
                Expr::if_then_else(c, a, self.tree(next))
            }
            2 => Expr::Arrow { init: self.bx(next), body: self.bx(next) },
            3 => Expr::Merge { clock: "c".into(), on_true: self.bx(next), on_false: self.bx(next) },
            4 => Expr::when(self.tree(next), "c", true),
            5 => Expr::pre(self.tree(next)),
            6 => match self.tree(next) {
                _ if self.rng.percent(30) => Expr::not(Expr::var("c")),
                e if self.rng.percent(20) || e == Expr::int_lit(i64::MIN) => Expr::not(e),
                e => Expr::neg(e),
            },
            7 => Expr::array((0..self.rng.range(1, 2)).map(|_| self.tree(next)).collect()),
            8 => self.index(next),
            9 => {
                let to = self.rng.pick(&[Type::Int8, self.other.clone(), Type::Float32, Type::named("A")]).clone();
                Expr::cast(to, self.unhinted(next))
            }
            10 => {
                let first = self.tree(next);
                Expr::call("f", vec![first, self.tree(next)])
            }
            11 => self.record(next),
            12 => Expr::map("f", vec![self.operand(next), self.operand(next)]),
            _ => Expr::fold("f", self.tree(next), self.operand(next)),
        }
    }

    /// An array for an iterator.
    fn operand(&mut self, level: usize) -> Expr {
        match self.rng.below(4) {
            0 => self.unhinted(level),
            1 => Expr::array(vec![self.tree(level + 1)]),
            _ => Expr::var("v"),
        }
    }

    fn index(&mut self, level: usize) -> Expr {
        let base = if self.rng.percent(50) { Expr::var("v") } else { self.unhinted(level) };
        let index = if self.rng.percent(50) { self.unhinted(level) } else { self.tree(level) };
        Expr::Index { base: Box::new(base), index: Box::new(index) }
    }

    fn name(&mut self) -> Expr {
        Expr::var(*self.rng.pick(&["x", "y"]))
    }

    /// A construct with a literal and a name in it, whose type depends on its hint.
    fn torn(&mut self) -> Expr {
        let (mut a, mut b) = (self.number(), self.name());
        if self.rng.percent(50) {
            std::mem::swap(&mut a, &mut b);
        }
        match self.rng.below(6) {
            0 | 1 => Expr::if_then_else(Expr::var("c"), a, b),
            2 => Expr::merge("c", a, b),
            3 => Expr::arrow(a, b),
            4 => Expr::array(vec![a, b]),
            _ => Expr::bin(*self.rng.pick(&[BinOp::Mul, BinOp::BitXor, BinOp::Lt]), a, b),
        }
    }

    /// A construct that hands a hint to a literal, makes one, or hands none to a part that needs it.
    fn pattern(&mut self) -> Expr {
        let compare = *self.rng.pick(&[BinOp::Eq, BinOp::Lt, BinOp::Ge, BinOp::Neq, BinOp::Sub, BinOp::BitAnd]);
        match self.rng.weighted(&[10, 16, 7, 8, 7, 8, 6, 6, 7, 6, 6, 6, 6, 7, 4]) {
            0 => Expr::bin(compare, self.name(), self.number()),
            1 => Expr::bin(compare, self.mixed(), self.number()),
            2 => Expr::bin(compare, self.number(), self.name()),
            3 => {
                let to = self.rng.pick(&[self.target.clone(), self.other.clone(), Type::Int32]).clone();
                Expr::cast(to, self.torn())
            }
            4 => Expr::if_then_else(self.torn(), self.number(), self.name()),
            5 => Expr::Index { base: Box::new(Expr::var("v")), index: Box::new(self.torn()) },
            6 => Expr::Index { base: Box::new(self.torn()), index: Box::new(Expr::int_lit(0)) },
            7 => Expr::Field { base: Box::new(self.torn()), field: "u".into() },
            8 => Expr::fold("f", self.number(), Expr::var("v")),
            9 => Expr::call("f", vec![self.number(), self.torn()]),
            10 => Expr::when(self.torn(), "c", self.rng.percent(50)),
            11 => self.torn(),
            12 => Expr::array((0..self.rng.below(3)).map(|_| self.leaf()).collect()),
            13 => {
                let (a, b) = (self.cond(4), if self.rng.percent(50) { self.torn() } else { self.leaf() });
                let op = *self.rng.pick(&[BinOp::And, BinOp::Or, BinOp::Xor, BinOp::Implies]);
                if self.rng.percent(50) { Expr::bin(op, a, b) } else { Expr::bin(op, b, a) }
            }
            _ => Expr::not(if self.rng.percent(70) { Expr::var("c") } else { self.torn() }),
        }
    }

    /// A construct over x and y, whose types may differ in being an alias only: which of them comes
    /// back shows in the hint that it gives.
    fn mixed(&mut self) -> Expr {
        let (a, b) = (self.name(), self.name());
        match self.rng.below(9) {
            0..=2 => Expr::bin(*self.rng.pick(&[BinOp::Add, BinOp::BitOr]), a, b),
            3 => Expr::if_then_else(Expr::var("c"), a, b),
            4 => Expr::merge("c", a, b),
            5 => Expr::arrow(a, b),
            6 | 7 => Expr::neg(a),
            _ => Expr::Index { base: Box::new(Expr::var("v")), index: Box::new(b) },
        }
    }

    /// A value of the record R, or a field of it or of something else.
    fn record(&mut self, level: usize) -> Expr {
        let (u, v) = (self.tree(level), self.tree(level));
        let init = |field: &str, value| FieldInit { field: field.into(), value };
        let value = Expr::structure("R", vec![init("u", u), init("v", v)]);
        match self.rng.below(3) {
            0 => Expr::Field { base: Box::new(value), field: "u".into() },
            1 => Expr::Field { base: Box::new(self.unhinted(level)), field: "u".into() },
            _ => value,
        }
    }
}
