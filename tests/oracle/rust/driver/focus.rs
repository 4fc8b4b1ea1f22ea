//! One construct with well-typed parts but, in part of the cases, a single fault: the way to the
//! rules that random expressions seldom reach.
use ol_ir::*;

use crate::express::{array, Maker};
use crate::names::Sort;
use crate::records::{BASIC, BINARY};

/// Weights of the constructs in `focused`: everything, iterators, records, operators.
const THEMES: [[usize; 11]; 4] = [
    [16, 6, 4, 10, 11, 11, 6, 5, 5, 5, 27],
    [2, 1, 1, 4, 2, 2, 2, 2, 4, 2, 78],
    [2, 1, 1, 8, 40, 40, 2, 2, 4, 2, 4],
    [26, 12, 10, 14, 2, 2, 12, 10, 4, 10, 4],
];

impl Maker<'_> {
    /// Such a construct, whatever its type.
    pub fn focused(&mut self, level: usize) -> Expr {
        self.fuel = self.fuel.min(8) - 1;
        match self.rng.weighted(&THEMES[self.theme]) {
            0 => self.two_operands(level),
            1 => self.any_cast(level),
            2 => self.one_operand(level),
            3 => self.any_call(level),
            4 => self.any_field(level),
            5 => self.any_struct(level),
            6 => self.any_index(level),
            7 => self.branches(level),
            8 => self.any_array(level),
            9 => self.clocked(level),
            _ => self.any_iterator(level),
        }
    }

    /// An operand of any type, mostly a name or a literal.
    fn part(&mut self, level: usize) -> Expr {
        let ty = self.any_type();
        self.part_of(&ty, level)
    }

    fn part_of(&mut self, ty: &Type, level: usize) -> Expr {
        let hinted = self.rng.percent(60);
        if self.rng.percent(70) {
            self.leaf(ty, hinted, level + 1)
        } else {
            self.typed(ty, hinted, level + 1)
        }
    }

    /// A type and mostly the same again.
    fn pair(&mut self) -> (Type, Type) {
        let first = if self.rng.percent(50) { self.numeric() } else { self.any_type() };
        let second = if self.rng.percent(65) { first.clone() } else { self.any_type() };
        (first, second)
    }

    fn two_operands(&mut self, level: usize) -> Expr {
        let (a, b) = self.pair();
        let op = *self.rng.pick(&BINARY);
        let lhs = self.part_of(&a, level);
        Expr::bin(op, lhs, self.part_of(&b, level))
    }

    fn any_cast(&mut self, level: usize) -> Expr {
        let to = if self.rng.percent(55) { self.rng.pick(&BASIC).clone() } else { self.any_type() };
        let from = if self.rng.percent(70) { self.numeric() } else { self.any_type() };
        Expr::cast(to, self.part_of(&from, level))
    }

    fn one_operand(&mut self, level: usize) -> Expr {
        let arg = self.part(level);
        if self.rng.percent(50) || arg == Expr::int_lit(i64::MIN) {
            Expr::not(arg)
        } else {
            Expr::neg(arg)
        }
    }

    fn any_call(&mut self, level: usize) -> Expr {
        let found = self.nodes(|_, _, _| true);
        if found.is_empty() || self.rng.percent(5) {
            return Expr::call(self.names.any(self.rng), vec![self.part(level)]);
        }
        let node = self.rng.pick(&found).clone();
        let mut call = self.call_of(node, level);
        if let Expr::Call { args, .. } = &mut call {
            self.spoil(args, level);
        }
        call
    }

    /// One item is replaced, left out or added, in part of the cases.
    fn spoil(&mut self, items: &mut Vec<Expr>, level: usize) {
        match self.rng.below(10) {
            0..=2 if !items.is_empty() => {
                let at = self.rng.below(items.len());
                items[at] = self.part(level);
            }
            3 => {
                items.pop();
            }
            4 => items.push(self.part(level)),
            _ => {}
        }
    }

    fn any_field(&mut self, level: usize) -> Expr {
        let record = self.some_record();
        if record.is_none() && self.rng.percent(60) {
            return self.two_operands(level);
        }
        let (name, field) = match &record {
            Some((name, fields)) if !fields.is_empty() && self.rng.percent(60) => {
                (name.clone(), self.rng.pick(fields).name.clone())
            }
            Some((name, fields)) => (name.clone(), self.no_field(fields)),
            None => (self.names.pick(self.rng, Sort::Type), self.names.pick(self.rng, Sort::Field)),
        };
        let base = match self.rng.below(10) {
            0 => self.part(level),
            1 => self.several(),
            2 => match self.variants.first() {
                Some((variant, _)) => Expr::var(variant),
                None => self.any_call(level),
            },
            _ => self.typed(&Type::named(name), false, level + 1),
        };
        Expr::Field { base: Box::new(base), field }
    }

    /// Mostly a name that no field of these has.
    fn no_field(&mut self, fields: &[RecordField]) -> String {
        let taken: Vec<String> = fields.iter().map(|f| f.name.clone()).collect();
        self.names.fresh(self.rng, Sort::Field, &taken)
    }

    fn some_record(&mut self) -> Option<(String, Vec<RecordField>)> {
        if self.records.is_empty() {
            return None;
        }
        Some(self.rng.pick(self.records).clone())
    }

    fn any_struct(&mut self, level: usize) -> Expr {
        let Some((name, fields)) = self.some_record() else {
            return if self.rng.percent(85) {
                self.two_operands(level)
            } else {
                Expr::structure(self.names.any(self.rng), vec![])
            };
        };
        let mut values: Vec<FieldInit> = Vec::new();
        for f in &fields {
            let fault = self.rng.percent(15);
            let value = if fault { self.part(level) } else { self.typed(&f.ty, true, level + 1) };
            values.push(FieldInit { field: f.name.clone(), value });
        }
        match self.rng.below(6) {
            0 => {
                values.pop();
            }
            1 => values.insert(0, FieldInit { field: self.no_field(&fields), value: self.wild(level + 2) }),
            2 => self.rng.shuffle(&mut values),
            _ => {}
        }
        let written = self.rng.percent(15).then(|| self.names.pick(self.rng, Sort::Type));
        Expr::structure(written.unwrap_or(name), values)
    }

    fn any_index(&mut self, level: usize) -> Expr {
        let elem = self.any_type();
        let base = match self.rng.below(5) {
            0 => self.part(level),
            _ => {
                let len = self.length_of(&elem);
                self.typed(&array(elem, len), false, level + 1)
            }
        };
        let index = if self.rng.percent(70) { self.typed(&Type::Int32, true, level + 1) } else { self.part(level) };
        Expr::Index { base: Box::new(base), index: Box::new(index) }
    }

    fn branches(&mut self, level: usize) -> Expr {
        let (a, b) = self.pair();
        let cond = if self.rng.percent(80) { self.typed(&Type::Bool, true, level + 1) } else { self.part(level) };
        let then = self.part_of(&a, level);
        let other = self.part_of(&b, level);
        match self.rng.below(3) {
            0 => Expr::arrow(then, Expr::pre(other)),
            _ => Expr::if_then_else(cond, then, other),
        }
    }

    fn clocked(&mut self, level: usize) -> Expr {
        let (a, b) = self.pair();
        let clock = match self.rng.below(3) {
            0 => self.wild_name(),
            _ => self.clock(),
        };
        let arg = self.part_of(&a, level);
        if self.rng.percent(35) {
            return Expr::when(arg, clock, self.rng.percent(50));
        }
        Expr::merge(clock, arg, self.part_of(&b, level))
    }

    fn any_array(&mut self, level: usize) -> Expr {
        let ty = self.any_type();
        let count = self.rng.weighted(&[12, 30, 38, 20]);
        let mut items: Vec<Expr> = (0..count).map(|_| self.part_of(&ty, level)).collect();
        self.spoil(&mut items, level);
        Expr::array(items)
    }

    /// A map or fold of a function in force, with arrays that fit it but for one fault.
    fn any_iterator(&mut self, level: usize) -> Expr {
        let kind = if self.rng.percent(50) { IterKind::Map } else { IterKind::Fold };
        let fold = kind == IterKind::Fold;
        let node = self.iterated(fold);
        let inputs: Vec<Type> = match self.signatures.get(&node) {
            Some((inputs, _, _)) => inputs.iter().map(|p| p.ty.clone()).collect(),
            None => self.palette.to_vec(),
        };
        let mut elements: Vec<Type> = inputs[if fold { inputs.len().min(1) } else { 0 }..].to_vec();
        let more = if fold { [52, 28, 20] } else { [86, 6, 8] };
        for _ in 0..self.rng.weighted(&more) {
            elements.push(self.any_type());
        }
        let len = elements.first().map_or(1, |e| self.length_of(e));
        let mut arrays: Vec<Expr> = elements.iter().map(|e| self.operand(e, len, level)).collect();
        self.upset_operand(&elements, len, &mut arrays, level);
        let seed = inputs.first().cloned().unwrap_or(Type::Bool);
        let init = match (fold, self.rng.below(8)) {
            (_, 0) | (false, 1..=2) => Some(self.part(level)),
            (true, 1..=5) => Some(self.part_of(&seed, level)),
            _ => None,
        };
        Expr::Iterate { kind, node, init: init.map(Box::new), arrays }
    }

    /// Mostly a function with one output, with two inputs for a fold; at times one without inputs for
    /// a map.
    fn iterated(&mut self, fold: bool) -> String {
        let constant = self.nodes(|i, o, k| k == NodeKind::Function && o.len() == 1 && i.is_empty());
        if !fold && !constant.is_empty() && self.rng.percent(30) {
            return self.rng.pick(&constant).clone();
        }
        let strict = self.rng.percent(75);
        let suits = |inputs: usize| !fold || inputs == 2 || !strict;
        let mut found = self.nodes(|i, o, k| k == NodeKind::Function && o.len() == 1 && suits(i.len()));
        if found.is_empty() || self.rng.percent(10) {
            found = self.nodes(|_, _, _| true);
        }
        if found.is_empty() || self.rng.percent(4) {
            found = vec![self.names.any(self.rng)];
        }
        self.rng.pick(&found).clone()
    }

    /// In half of the cases one array, mostly the last, has another length or element type, is none, is
    /// left out or comes in addition.
    fn upset_operand(&mut self, elements: &[Type], len: u32, arrays: &mut Vec<Expr>, level: usize) {
        let fault = self.rng.below(12);
        if arrays.is_empty() || fault > 6 {
            return;
        }
        let last = arrays.len() - 1;
        let at = if self.rng.percent(50) { last } else { self.rng.below(last + 1) };
        let other = self.any_type();
        match fault {
            0 | 1 => arrays[at] = self.operand(&elements[at], len ^ 1, level),
            2 => {
                while arrays.len() < 2 {
                    arrays.push(self.operand(&elements[0], len, level));
                }
                arrays.push(self.operand(&elements[0], len ^ 1, level));
            }
            3 => arrays[at] = self.operand(&other, len, level),
            4 => arrays[at] = self.part(level),
            5 => {
                arrays.pop();
            }
            _ => arrays.push(self.operand(&other, len, level)),
        }
    }

    /// An array of this length: a name or a literal.
    fn operand(&mut self, elem: &Type, len: u32, level: usize) -> Expr {
        let ty = array(elem.clone(), len);
        if let Some(name) = self.known(&ty) {
            return Expr::var(name);
        }
        if len <= 3 && (len > 0 || self.rng.percent(20)) {
            let hinted = self.types.resolve(elem) == Type::Int32;
            return Expr::array((0..len).map(|_| self.leaf(elem, hinted, level + 2)).collect());
        }
        self.typed(&ty, false, level + 1)
    }
}
