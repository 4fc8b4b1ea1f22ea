//! Random expressions. `typed` aims at a wanted type and goes wrong on purpose now and then;
//! `wild` takes anything anywhere.
use std::collections::{BTreeMap, HashMap};

use ol_ir::*;
use ol_typecheck::TypeContext;

use crate::names::{Names, Sort};
use crate::records::{BASIC, BINARY};
use crate::rng::Rng;

pub type Signatures = HashMap<String, (Vec<Port>, Vec<Port>, NodeKind)>;

/// What expressions are made from: the declarations, the ports in force, how much is left to make.
pub struct Maker<'a> {
    pub rng: &'a mut Rng,
    pub names: &'a Names,
    pub palette: &'a [Type],
    pub types: &'a TypeContext,
    pub records: &'a [(String, Vec<RecordField>)],
    pub constants: &'a [(String, Type)],
    pub variants: &'a [(String, String)],
    pub signatures: &'a Signatures,
    pub ports: BTreeMap<String, Type>,
    /// names that may be read in the same instant
    pub readable: Vec<String>,
    pub function: bool,
    /// percent of parts that are made wrong
    pub errors: usize,
    /// records left to spend
    pub fuel: i64,
    /// above 0 under `pre` and in the body of an arrow
    pub later: usize,
    /// which constructs `focused` makes more of
    pub theme: usize,
}

fn boxed(e: Expr) -> Box<Expr> {
    Box::new(e)
}

pub fn array(elem: Type, len: u32) -> Type {
    Type::Array { elem: Box::new(elem), len }
}

/// Least and greatest value of an integer type, as far as a literal can hold them.
pub fn ends(ty: &Type) -> (i64, i64) {
    match ty {
        Type::Int8 => (i8::MIN.into(), i8::MAX.into()),
        Type::Int16 => (i16::MIN.into(), i16::MAX.into()),
        Type::Int32 => (i32::MIN.into(), i32::MAX.into()),
        Type::Uint8 => (0, u8::MAX.into()),
        Type::Uint16 => (0, u16::MAX.into()),
        Type::Uint32 => (0, u32::MAX.into()),
        Type::Uint64 => (0, i64::MAX),
        _ => (i64::MIN, i64::MAX),
    }
}

impl Maker<'_> {
    fn same(&self, a: &Type, b: &Type) -> bool {
        self.types.resolve(a) == self.types.resolve(b)
    }

    pub fn any_type(&mut self) -> Type {
        if self.rng.percent(75) {
            self.rng.pick(self.palette).clone()
        } else {
            self.rng.pick(&BASIC).clone()
        }
    }

    pub fn numeric(&mut self) -> Type {
        let palette: Vec<&Type> = self.palette.iter().filter(|t| self.types.resolve(t).is_numeric()).collect();
        if palette.is_empty() || self.rng.percent(25) {
            self.rng.pick(&BASIC[1..11]).clone()
        } else {
            (*self.rng.pick(&palette)).clone()
        }
    }

    /// An expression that should have the wanted type; `hinted` if a literal in its place gets that
    /// type as its hint.
    pub fn typed(&mut self, want: &Type, hinted: bool, level: usize) -> Expr {
        self.fuel -= 1;
        if self.rng.percent(self.errors) {
            return self.wrong(level);
        }
        if self.fuel <= 0 || level > 12 {
            return self.leaf(want, hinted, level);
        }
        let whole = if level == 1 { 24 } else { 3 };
        let made = match self.rng.weighted(&[30, 7, 8, 3, 12, 8, 8, 10, 7, 6, 20, 5, 5, whole]) {
            0 => None,
            1 => self.choice(want, hinted, level),
            2 => self.arrow(want, hinted, level),
            3 => self.earlier(want, hinted, level),
            4 => self.call(want, level),
            5 => self.field(want, level),
            6 => self.index(want, level),
            7 => self.built(want, hinted, level),
            8 => self.cast(want, level),
            9 => self.unary(want, hinted, level),
            10 => self.binary(want, hinted, level),
            11 => self.when(want, hinted, level),
            12 => self.merge(want, hinted, level),
            _ => self.iterator(want, level),
        };
        made.unwrap_or_else(|| self.leaf(want, hinted, level))
    }

    fn wrong(&mut self, level: usize) -> Expr {
        match self.rng.below(10) {
            0..=4 => {
                let other = self.any_type();
                let hinted = self.rng.percent(50);
                self.leaf(&other, hinted, level)
            }
            5..=7 if level < 8 => self.focused(level),
            _ => self.wild(level + 2),
        }
    }

    /// A name of the wanted type: port, constant or variant.
    pub fn known(&mut self, want: &Type) -> Option<String> {
        let mut found: Vec<String> = Vec::new();
        let open = self.later > 0;
        for (name, ty) in &self.ports {
            if self.same(ty, want) && (open || self.readable.contains(name)) {
                found.extend([name.clone(), name.clone()]);
            }
        }
        for (name, ty) in self.constants {
            if !self.ports.contains_key(name) && self.same(ty, want) {
                found.push(name.clone());
            }
        }
        for (name, of) in self.variants {
            if !self.ports.contains_key(name) && self.same(&Type::named(of), want) {
                found.push(name.clone());
            }
        }
        (!found.is_empty()).then(|| self.rng.pick(&found).clone())
    }

    pub fn leaf(&mut self, want: &Type, hinted: bool, level: usize) -> Expr {
        let resolved = self.types.resolve(want);
        if self.rng.percent(70) {
            if let Some(name) = self.known(want) {
                return Expr::var(name);
            }
        }
        if let Some(e) = self.literal(&resolved, hinted) {
            return e;
        }
        if let Some(name) = self.known(want) {
            return Expr::var(name);
        }
        if level < 20 && self.fuel > -30 {
            if let Some(e) = self.built(want, hinted, level) {
                return e;
            }
            if let Some(e) = self.call(want, level) {
                return e;
            }
        }
        Expr::var(self.names.pick(self.rng, Sort::Variable))
    }

    fn literal(&mut self, ty: &Type, hinted: bool) -> Option<Expr> {
        let mut fits = hinted;
        let lit = match ty {
            Type::Bool => return Some(Expr::bool_lit(self.rng.percent(50))),
            Type::Char => return Some(Expr::Const { lit: Literal::char(self.rng.below(256) as u8) }),
            t if t.is_float() => {
                fits |= *t == Type::Float64;
                self.float()
            }
            t if t.is_integer() => {
                fits |= *t == Type::Int32;
                self.integer(t)
            }
            _ => return None,
        };
        Some(if fits || self.rng.percent(15) { lit } else { Expr::cast(ty.clone(), lit) })
    }

    fn float(&mut self) -> Expr {
        let bits = if self.rng.percent(80) { 1.5f64.to_bits() } else { self.rng.next() };
        Expr::Const { lit: Literal::float(f64::from_bits(bits)) }
    }

    /// An integer literal near the ends of a type, negative ones with or without a minus.
    fn integer(&mut self, ty: &Type) -> Expr {
        let (low, high) = ends(ty);
        let value = match self.rng.below(12) {
            0 => low,
            1 => high,
            2 => low.saturating_sub(1),
            3 => high.saturating_add(1),
            4 => 3_000_000_000,
            5 => low / 2,
            _ => self.rng.below(4) as i64,
        };
        if (value < 0 && value != i64::MIN && self.rng.percent(70)) || (value >= 0 && self.rng.percent(8)) {
            return Expr::neg(Expr::int_lit(-value));
        }
        Expr::int_lit(value)
    }

    fn choice(&mut self, want: &Type, hinted: bool, level: usize) -> Option<Expr> {
        let cond = self.typed(&Type::Bool, true, level + 1);
        let then = self.typed(want, hinted, level + 1);
        Some(Expr::if_then_else(cond, then, self.typed(want, true, level + 1)))
    }

    fn arrow(&mut self, want: &Type, hinted: bool, level: usize) -> Option<Expr> {
        if self.function && self.rng.percent(85) {
            return None;
        }
        let init = self.typed(want, hinted, level + 1);
        self.later += 1;
        let body = self.typed(want, true, level + 1);
        self.later -= 1;
        Some(Expr::arrow(init, match self.rng.below(10) {
            0 => Expr::pre(Expr::pre(body)),
            1..=6 => Expr::pre(body),
            _ => body,
        }))
    }

    fn earlier(&mut self, want: &Type, hinted: bool, level: usize) -> Option<Expr> {
        if self.function && self.rng.percent(85) {
            return None;
        }
        self.later += 1;
        let arg = self.typed(want, hinted, level + 1);
        self.later -= 1;
        Some(Expr::pre(arg))
    }

    /// The nodes in force that pass a test, in byte order of their names.
    pub fn nodes(&self, test: impl Fn(&[Port], &[Port], NodeKind) -> bool) -> Vec<String> {
        let mut found: Vec<String> = self.signatures.iter()
            .filter(|(_, (i, o, k))| test(i, o, *k))
            .map(|(n, _)| n.clone())
            .collect();
        found.sort();
        found
    }

    fn call(&mut self, want: &Type, level: usize) -> Option<Expr> {
        let lax = self.rng.percent(10);
        let found = self.nodes(|_, o, k| {
            o.len() == 1 && self.same(&o[0].ty, want) && (lax || !self.function || k != NodeKind::Operator)
        });
        if found.is_empty() {
            return None;
        }
        let node = self.rng.pick(&found).clone();
        Some(self.call_of(node, level))
    }

    pub fn call_of(&mut self, node: String, level: usize) -> Expr {
        let inputs = self.signatures[&node].0.clone();
        let mut args: Vec<Expr> = inputs.iter().map(|p| self.typed(&p.ty, true, level + 1)).collect();
        if self.rng.percent(self.errors) {
            if self.rng.percent(50) {
                args.pop();
            } else {
                args.push(self.wild(level + 2));
            }
        }
        Expr::call(node, args)
    }

    fn field(&mut self, want: &Type, level: usize) -> Option<Expr> {
        let mut found: Vec<(String, String)> = Vec::new();
        for (name, fields) in self.records {
            for f in fields {
                if self.same(&f.ty, want) {
                    found.push((name.clone(), f.name.clone()));
                }
            }
        }
        if found.is_empty() {
            return None;
        }
        let (record, field) = self.rng.pick(&found).clone();
        let base = self.typed(&Type::named(record), false, level + 1);
        Some(Expr::Field { base: boxed(base), field })
    }

    fn index(&mut self, want: &Type, level: usize) -> Option<Expr> {
        let len = self.length_of(want);
        let base = self.typed(&array(want.clone(), len), false, level + 1);
        let at = if self.rng.percent(80) { Type::Int32 } else { self.numeric() };
        let index = self.typed(&at, at == Type::Int32, level + 1);
        Some(Expr::Index { base: boxed(base), index: boxed(index) })
    }

    /// The length of a port that is an array of these elements, or a small one.
    pub fn length_of(&mut self, elem: &Type) -> u32 {
        let elem = self.types.resolve(elem);
        for ty in self.ports.values().chain(self.palette) {
            if let Type::Array { elem: e, len } = self.types.resolve(ty) {
                if *e == elem && self.rng.percent(70) {
                    return len;
                }
            }
        }
        self.rng.below(4) as u32
    }

    /// An array or struct value.
    fn built(&mut self, want: &Type, hinted: bool, level: usize) -> Option<Expr> {
        match self.types.resolve(want) {
            Type::Array { elem, len } if len <= 4 => {
                let hinted = hinted || (len > 0 && *elem == Type::Int32);
                Some(Expr::array((0..len).map(|_| self.typed(&elem, hinted, level + 1)).collect()))
            }
            Type::Named { name } => self.structure(&name, level),
            _ => None,
        }
    }

    fn structure(&mut self, name: &str, level: usize) -> Option<Expr> {
        let fields = self.records.iter().find(|(n, _)| n == name)?.1.clone();
        let mut values = Vec::new();
        for f in &fields {
            if !self.rng.percent(self.errors) {
                let value = self.typed(&f.ty, true, level + 1);
                values.push(FieldInit { field: f.name.clone(), value });
            }
        }
        if self.rng.percent(self.errors) {
            values.push(FieldInit { field: self.names.pick(self.rng, Sort::Field), value: self.wild(level + 2) });
        }
        if self.rng.percent(20) {
            self.rng.shuffle(&mut values);
        }
        let written = self.names.pick(self.rng, Sort::Type);
        let alias = self.same(&Type::named(&written), &Type::named(name));
        Some(Expr::structure(if alias { written } else { name.to_string() }, values))
    }

    fn cast(&mut self, want: &Type, level: usize) -> Option<Expr> {
        if !self.types.resolve(want).is_numeric() {
            return None;
        }
        let from = self.numeric();
        let to = if self.rng.percent(5) { want.clone() } else { self.types.resolve(want) };
        Some(Expr::cast(to, self.typed(&from, false, level + 1)))
    }

    fn unary(&mut self, want: &Type, hinted: bool, level: usize) -> Option<Expr> {
        let resolved = self.types.resolve(want);
        if resolved.is_bool() {
            Some(Expr::not(self.typed(want, hinted, level + 1)))
        } else if resolved.is_numeric() {
            let arg = self.typed(want, hinted, level + 1);
            Some(if arg == Expr::int_lit(i64::MIN) { arg } else { Expr::neg(arg) })
        } else {
            None
        }
    }

    fn binary(&mut self, want: &Type, hinted: bool, level: usize) -> Option<Expr> {
        let resolved = self.types.resolve(want);
        if resolved.is_bool() {
            let (op, ty) = match self.rng.below(3) {
                0 => (self.rng.pick(&BINARY[..4]), Type::Bool),
                1 => (self.rng.pick(&BINARY[4..6]), self.any_type()),
                _ => (self.rng.pick(&BINARY[6..10]), self.numeric()),
            };
            let lhs = self.typed(&ty, false, level + 1);
            return Some(Expr::bin(*op, lhs, self.typed(&ty, ty.is_integer(), level + 1)));
        }
        let ops = match &resolved {
            t if t.is_integer() => &BINARY[10..],
            t if t.is_float() => &BINARY[10..15],
            _ => return None,
        };
        let op = *self.rng.pick(ops);
        let lhs = self.typed(want, hinted, level + 1);
        Some(Expr::bin(op, lhs, self.typed(want, true, level + 1)))
    }

    pub fn clock(&mut self) -> String {
        match self.known(&Type::Bool) {
            Some(name) if self.ports.contains_key(&name) || self.rng.percent(30) => name,
            _ => self.names.pick(self.rng, Sort::Variable),
        }
    }

    fn when(&mut self, want: &Type, hinted: bool, level: usize) -> Option<Expr> {
        let (clock, on) = (self.clock(), self.rng.percent(50));
        Some(Expr::when(self.typed(want, hinted, level + 1), clock, on))
    }

    fn merge(&mut self, want: &Type, hinted: bool, level: usize) -> Option<Expr> {
        let clock = self.clock();
        let on_true = self.typed(want, hinted, level + 1);
        Some(Expr::merge(clock, on_true, self.typed(want, true, level + 1)))
    }

    fn iterator(&mut self, want: &Type, level: usize) -> Option<Expr> {
        match self.types.resolve(want) {
            Type::Array { elem, len } if self.rng.percent(80) => self.map(&elem, len, level),
            resolved => self.fold(&resolved, level),
        }
    }

    fn map(&mut self, elem: &Type, len: u32, level: usize) -> Option<Expr> {
        let found = self.nodes(|_, o, k| k == NodeKind::Function && o.len() == 1 && self.same(&o[0].ty, elem));
        if found.is_empty() {
            return None;
        }
        let node = self.rng.pick(&found).clone();
        let inputs = self.signatures[&node].0.clone();
        let init = self.rng.percent(10).then(|| boxed(self.wild(level + 2)));
        let mut arrays: Vec<Expr> = inputs.iter()
            .map(|p| self.typed(&array(p.ty.clone(), len), false, level + 1))
            .collect();
        if self.rng.percent(self.errors) {
            arrays.pop();
        }
        Some(Expr::Iterate { kind: IterKind::Map, node, init, arrays })
    }

    fn fold(&mut self, want: &Type, level: usize) -> Option<Expr> {
        let found = self.nodes(|i, o, k| {
            let stateless = k == NodeKind::Function && o.len() == 1 && i.len() == 2;
            stateless && self.same(&o[0].ty, want) && self.same(&i[0].ty, want)
        });
        if found.is_empty() {
            return None;
        }
        let node = self.rng.pick(&found).clone();
        let inputs = self.signatures[&node].0.clone();
        let init = self.rng.percent(75).then(|| boxed(self.typed(&inputs[0].ty, true, level + 1)));
        let len = self.length_of(&inputs[1].ty);
        let count = self.rng.weighted(&[5, 75, 20]);
        let mut arrays = Vec::new();
        for i in 0..count {
            let elem = if i == 0 { inputs[1].ty.clone() } else { self.any_type() };
            arrays.push(self.typed(&array(elem, len), false, level + 1));
        }
        Some(Expr::Iterate { kind: IterKind::Fold, node, init, arrays })
    }

    /// A value for an equation with several names: a call with several outputs, or a tuple.
    pub fn several(&mut self) -> Expr {
        let found = self.nodes(|_, o, _| o.len() >= 2);
        if !found.is_empty() && self.rng.percent(65) {
            let node = self.rng.pick(&found).clone();
            return self.call_of(node, 1);
        }
        let items = (0..self.rng.below(4)).map(|_| self.wild(3)).collect();
        Expr::Tuple { items }
    }

    pub fn wild_name(&mut self) -> String {
        match self.rng.below(8) {
            0 => self.names.pick(self.rng, Sort::Constant),
            1 => self.names.pick(self.rng, Sort::Variant),
            2 => self.names.any(self.rng),
            _ => self.names.pick(self.rng, Sort::Variable),
        }
    }

    fn wild_leaf(&mut self) -> Expr {
        let lit = match self.rng.below(10) {
            0 => Literal::bool(self.rng.percent(50)),
            1 => {
                let ty = self.rng.pick(&BASIC[1..9]).clone();
                return self.integer(&ty);
            }
            2 => Literal::int(self.rng.below(3) as i64),
            3 => return self.float(),
            4 => Literal::char(65),
            _ => return Expr::var(self.wild_name()),
        };
        Expr::Const { lit }
    }

    fn wild_list(&mut self, level: usize) -> Vec<Expr> {
        (0..self.rng.weighted(&[20, 40, 30, 10])).map(|_| self.wild(level)).collect()
    }

    /// Any expression at all.
    pub fn wild(&mut self, level: usize) -> Expr {
        self.fuel -= 1;
        if self.fuel <= 0 || level > 6 || self.rng.percent(35) {
            return self.wild_leaf();
        }
        let level = level + 1;
        match self.rng.below(12) {
            0 => Expr::not(self.wild(level)),
            1 => match self.wild(level) {
                e if e == Expr::int_lit(i64::MIN) => e,
                e => Expr::neg(e),
            },
            2 => {
                let op = *self.rng.pick(&BINARY);
                let lhs = self.wild(level);
                Expr::bin(op, lhs, self.wild(level))
            }
            3 => {
                let (c, t) = (self.wild(level), self.wild(level));
                Expr::if_then_else(c, t, self.wild(level))
            }
            4 => Expr::pre(self.wild(level)),
            5 => {
                let init = self.wild(level);
                Expr::arrow(init, self.wild(level))
            }
            _ => self.wild_construct(level),
        }
    }

    fn wild_construct(&mut self, level: usize) -> Expr {
        match self.rng.below(10) {
            0 => Expr::call(self.names.pick(self.rng, Sort::Node), self.wild_list(level)),
            1 => {
                let base = boxed(self.wild(level));
                Expr::Field { base, field: self.names.pick(self.rng, Sort::Field) }
            }
            2 => {
                let base = boxed(self.wild(level));
                Expr::Index { base, index: boxed(self.wild(level)) }
            }
            3 => Expr::Tuple { items: self.wild_list(level) },
            4 => Expr::array(self.wild_list(level)),
            5 => {
                let values = self.wild_list(level).into_iter();
                let init = |value| FieldInit { field: self.names.pick(self.rng, Sort::Field), value };
                let values = values.map(init).collect();
                Expr::structure(self.names.pick(self.rng, Sort::Type), values)
            }
            6 => Expr::cast(self.any_type(), self.wild(level)),
            7 => Expr::when(self.wild(level), self.wild_name(), self.rng.percent(50)),
            8 => {
                let (clock, on_true) = (self.wild_name(), self.wild(level));
                Expr::merge(clock, on_true, self.wild(level))
            }
            _ => Expr::Iterate {
                kind: if self.rng.percent(50) { IterKind::Map } else { IterKind::Fold },
                node: self.names.pick(self.rng, Sort::Node),
                init: self.rng.percent(50).then(|| boxed(self.wild(level))),
                arrays: self.wild_list(level),
            },
        }
    }
}
