//! Models about tuples: calls with no to four outputs and tuples of no to three items, alone and where
//! two types meet, for equations with no to four names.
use ol_ir::*;

use crate::express::array;
use crate::rng::Rng;
use crate::special::{alias, node, package, port};

const OUTPUTS: [&str; 4] = ["p", "q", "r", "s"];
const NAMES: [&str; 6] = ["a", "b", "d", "e", "i", "z"];

struct Tuples<'a> {
    rng: &'a mut Rng,
    types: Vec<Type>,
    callees: usize,
}

/// A node with a few equations over two to four callees. Its names are of few types, aliases among them,
/// one leading to itself; `i` and `c` are inputs, and `z` is not declared.
pub fn tuples(rng: &mut Rng) -> Project {
    let target = rng.pick(&[Type::Int32, Type::Bool, Type::Int8]).clone();
    let mut types = vec![target.clone(), target.clone(), Type::named("A"), Type::named("B"), Type::Bool];
    types.extend([array(Type::named("A"), 2), array(target.clone(), 2), Type::named("L")]);
    let kept = rng.range(1, types.len());
    rng.shuffle(&mut types);
    types.truncate(kept);
    let mut declared = vec![alias("A", target), alias("B", Type::named("A"))];
    if rng.percent(25) {
        declared.push(alias("L", Type::named("L")));
    }
    let callees = rng.range(2, 4);
    let mut make = Tuples { rng, types, callees };
    let mut nodes = vec![make.under_test()];
    nodes.extend((0..callees).map(|i| make.callee(i)));
    Project { packages: vec![package(declared, vec![], nodes)] }
}

impl Tuples<'_> {
    fn ty(&mut self) -> Type {
        self.rng.pick(&self.types).clone()
    }

    fn under_test(&mut self) -> NodeDef {
        let kind = if self.rng.percent(80) { NodeKind::Operator } else { NodeKind::Function };
        let inputs = vec![port("i", &self.ty()), port("c", &Type::Bool)];
        let mut n = node("n", kind, inputs, vec![]);
        n.outputs = ["a", "b"].iter().map(|x| port(x, &self.ty())).collect();
        n.locals = ["d", "e"].iter().map(|x| Local { name: x.to_string(), ty: self.ty() }).collect();
        for _ in 0..self.rng.range(2, 5) {
            let count = self.rng.weighted(&[8, 22, 40, 22, 8]);
            let lhs = (0..count).map(|_| self.rng.pick(&NAMES).to_string()).collect();
            let rhs = if self.rng.percent(55) { self.call(1) } else { self.tree(1) };
            n.equations.push(Equation { lhs, rhs });
        }
        n
    }

    fn callee(&mut self, number: usize) -> NodeDef {
        let kind = *self.rng.pick(&[NodeKind::Imported, NodeKind::Imported, NodeKind::Function, NodeKind::Operator]);
        let inputs = if self.rng.percent(50) { vec![port("i", &self.ty())] } else { vec![] };
        let count = self.rng.weighted(&[8, 12, 50, 22, 8]);
        let outputs = OUTPUTS[..count].iter().map(|x| port(x, &self.ty())).collect();
        node(&format!("f{number}"), kind, inputs, outputs)
    }

    fn call(&mut self, level: usize) -> Expr {
        let callee = format!("f{}", self.rng.below(self.callees));
        let args = if self.rng.percent(50) { vec![self.leaf(level + 1)] } else { vec![] };
        Expr::call(callee, args)
    }

    fn tuple(&mut self, level: usize) -> Expr {
        let items = (0..self.rng.weighted(&[10, 25, 45, 20])).map(|_| self.leaf(level + 1)).collect();
        Expr::Tuple { items }
    }

    fn leaf(&mut self, level: usize) -> Expr {
        match self.rng.below(12) {
            0..=4 => Expr::var(*self.rng.pick(&NAMES)),
            5..=7 => Expr::int_lit(*self.rng.pick(&[1, 1, 200, 3_000_000_000])),
            8 => Expr::bool_lit(true),
            _ if level < 4 => self.call(level),
            _ => Expr::var("c"),
        }
    }

    /// A tuple or a call, or two of them where their types meet.
    fn tree(&mut self, level: usize) -> Expr {
        if level > 3 {
            return self.leaf(level);
        }
        let next = level + 1;
        match self.rng.weighted(&[20, 22, 8, 7, 7, 5, 5, 5, 7, 4, 3, 3]) {
            0 => self.call(level),
            1 => self.tuple(level),
            2 => Expr::if_then_else(Expr::var("c"), self.tree(next), self.tree(next)),
            3 => Expr::arrow(self.tree(next), self.tree(next)),
            4 => Expr::merge("c", self.tree(next), self.tree(next)),
            5 => Expr::when(self.tree(next), "c", true),
            6 => Expr::pre(self.tree(next)),
            7 => Expr::array((0..self.rng.range(1, 3)).map(|_| self.tree(next)).collect()),
            8 => Expr::bin(*self.rng.pick(&[BinOp::Eq, BinOp::Neq, BinOp::Lt, BinOp::Add]), self.tree(next), self.tree(next)),
            9 => Expr::Index { base: Box::new(self.tree(next)), index: Box::new(self.tree(next)) },
            10 => Expr::Field { base: Box::new(self.tree(next)), field: "p".into() },
            _ => self.leaf(next),
        }
    }
}
