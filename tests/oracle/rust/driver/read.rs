//! Reads a project out of records, by document 01's grammar, and tells whether a model is in the
//! domain in which the Rust is compared.
use ol_ir::*;

use crate::records::{Model, BASIC, BINARY};

pub const MOST_RECORDS: usize = 4096;
pub const MOST_TEXT: usize = 16384;
pub const MOST_NAMES: usize = 512;
pub const TYPE_LEVELS: usize = 68;
pub const EXPR_LEVELS: usize = 60;

type Read<T> = Result<T, String>;

/// The names of a model: 1 to 64 non-zero bytes each, closed by a zero byte, increasing, UTF-8,
/// not one of the two barred ones.
pub fn names_of(text: &[u8]) -> Read<Vec<String>> {
    let mut names: Vec<String> = Vec::new();
    let mut rest = text;
    while !rest.is_empty() {
        let end = rest.iter().position(|b| *b == 0).ok_or("a name is not closed")?;
        let name = String::from_utf8(rest[..end].to_vec()).map_err(|_| "a name is not UTF-8")?;
        let below = names.last().is_some_and(|before| before.as_bytes() >= name.as_bytes());
        let barred = name == "__tuple__" || name == "__unit__";
        if end == 0 || end > 64 || below || barred || names.len() == MOST_NAMES {
            return Err(format!("name {} is refused", names.len()));
        }
        names.push(name);
        rest = &rest[end + 1..];
    }
    Ok(names)
}

/// The project that the records form, with `names` as the texts of the name numbers; no records and no
/// text are a project without packages. Fails outside the domain.
pub fn read(model: &Model, names: &[String]) -> Read<Project> {
    let sizes = model.kinds.len() == model.words.len();
    if !sizes || model.kinds.len() > MOST_RECORDS || model.text.len() > MOST_TEXT {
        return Err("sizes".into());
    }
    if model.kinds.is_empty() && model.text.is_empty() {
        return Ok(Project { packages: vec![] });
    }
    let mut r = Reader { model, names, at: 0 };
    let packages = r.count(1)?;
    let project = Project { packages: r.times(packages, Reader::package)? };
    if r.at != model.kinds.len() {
        return Err(format!("record {} is left over", r.at));
    }
    Ok(project)
}

struct Reader<'a> {
    model: &'a Model,
    names: &'a [String],
    at: usize,
}

impl Reader<'_> {
    fn fail<T>(&self, why: &str) -> Read<T> {
        Err(format!("record {}: {why}", self.at))
    }

    fn next(&mut self) -> Read<(u8, u64)> {
        if self.at == self.model.kinds.len() {
            return self.fail("the records end early");
        }
        self.at += 1;
        Ok((self.model.kinds[self.at - 1], self.model.words[self.at - 1]))
    }

    fn expect(&mut self, kind: u8) -> Read<u64> {
        match self.next()? {
            (k, w) if k == kind => Ok(w),
            (k, _) => self.fail(&format!("kind {k} where {kind} is due")),
        }
    }

    fn count(&mut self, kind: u8) -> Read<usize> {
        let word = self.expect(kind)?;
        self.counted(word)
    }

    fn counted(&self, word: u64) -> Read<usize> {
        if word > MOST_RECORDS as u64 {
            return self.fail("a count is too large");
        }
        Ok(word as usize)
    }

    fn text(&self, word: u64) -> Read<String> {
        match self.names.get(word as usize) {
            Some(name) => Ok(name.clone()),
            None => self.fail("no name has this number"),
        }
    }

    fn name(&mut self, kind: u8) -> Read<String> {
        let word = self.expect(kind)?;
        self.text(word)
    }

    fn zero(&self, word: u64) -> Read<()> {
        if word != 0 {
            return self.fail("a word is not 0");
        }
        Ok(())
    }

    fn times<T>(&mut self, n: usize, mut item: impl FnMut(&mut Self) -> Read<T>) -> Read<Vec<T>> {
        (0..n).map(|_| item(self)).collect()
    }

    fn list<T>(&mut self, item: impl FnMut(&mut Self) -> Read<T>) -> Read<Vec<T>> {
        let n = self.count(3)?;
        self.times(n, item)
    }

    fn package(&mut self) -> Read<Package> {
        Ok(Package {
            name: self.name(2)?,
            types: self.list(Self::declaration)?,
            constants: self.list(Self::constant)?,
            nodes: self.list(Self::node)?,
        })
    }

    fn declaration(&mut self) -> Read<TypeDecl> {
        let (kind, word) = self.next()?;
        let name = self.text(word)?;
        let body = match kind {
            4 => TypeBody::Alias { name, target: self.typ(1)? },
            5 => TypeBody::Record {
                name,
                fields: self.list(|r| r.port().map(|(name, ty)| RecordField { name, ty }))?,
            },
            6 => TypeBody::Enum(EnumDef { name, variants: self.list(|r| r.name(8))? }),
            _ => return self.fail("no type declaration"),
        };
        Ok(TypeDecl { body })
    }

    fn port(&mut self) -> Read<(String, Type)> {
        Ok((self.name(7)?, self.typ(1)?))
    }

    fn constant(&mut self) -> Read<ConstantDef> {
        Ok(ConstantDef { name: self.name(9)?, ty: self.typ(1)?, value: self.expr(1)? })
    }

    fn node(&mut self) -> Read<NodeDef> {
        let (kind, word) = self.next()?;
        let kind = match kind {
            10 => NodeKind::Function,
            11 => NodeKind::Operator,
            12 => NodeKind::Imported,
            _ => return self.fail("no node"),
        };
        let probe = |var| Probe { label: String::new(), var };
        Ok(NodeDef {
            name: self.text(word)?,
            kind,
            inputs: self.list(|r| r.port().map(|(name, ty)| Port { name, ty }))?,
            outputs: self.list(|r| r.port().map(|(name, ty)| Port { name, ty }))?,
            locals: self.list(|r| r.port().map(|(name, ty)| Local { name, ty }))?,
            equations: self.list(Self::equation)?,
            contract: None,
            diagram: Default::default(),
            probes: self.list(|r| r.name(8).map(probe))?,
        })
    }

    fn equation(&mut self) -> Read<Equation> {
        let word = self.expect(13)?;
        self.zero(word)?;
        Ok(Equation { lhs: self.list(|r| r.name(8))?, rhs: self.expr(1)? })
    }

    fn typ(&mut self, level: usize) -> Read<Type> {
        if level > TYPE_LEVELS {
            return self.fail("a type is too deep");
        }
        let (kind, word) = self.next()?;
        match kind {
            20..=31 => {
                self.zero(word)?;
                Ok(BASIC[kind as usize - 20].clone())
            }
            32 => {
                let Ok(len) = u32::try_from(word) else {
                    return self.fail("a length is too large");
                };
                Ok(Type::Array { elem: Box::new(self.typ(level + 1)?), len })
            }
            33 => Ok(Type::Named { name: self.text(word)? }),
            _ => self.fail("no type"),
        }
    }

    fn boxed(&mut self, level: usize) -> Read<Box<Expr>> {
        self.expr(level).map(Box::new)
    }

    fn expr(&mut self, level: usize) -> Read<Expr> {
        if level > EXPR_LEVELS {
            return self.fail("an expression is too deep");
        }
        let (kind, word) = self.next()?;
        match kind {
            40..=43 => self.literal(kind, word),
            45..=69 | 72 | 76 => {
                self.zero(word)?;
                self.plain(kind, level + 1)
            }
            73 | 74 => {
                let n = self.counted(word)?;
                let items = self.times(n, |r| r.expr(level + 1))?;
                Ok(if kind == 73 { Expr::Tuple { items } } else { Expr::Array { items } })
            }
            44 | 70 | 71 | 75 | 77..=83 => {
                let name = self.text(word)?;
                self.with_name(kind, name, level + 1)
            }
            _ => self.fail("no expression"),
        }
    }

    fn literal(&mut self, kind: u8, word: u64) -> Read<Expr> {
        let lit = match kind {
            40 if word <= 1 => Literal::Bool { value: word == 1 },
            41 => Literal::Int { value: word as i64 },
            42 => Literal::Float { value: f64::from_bits(word) },
            43 if word <= 255 => Literal::Char { value: word as u8 },
            _ => return self.fail("a literal out of range"),
        };
        Ok(Expr::Const { lit })
    }

    /// An expression with no word; `level` is that of its operands.
    fn plain(&mut self, kind: u8, level: usize) -> Read<Expr> {
        Ok(match kind {
            45 => Expr::Unary { op: UnaryOp::Not, arg: self.boxed(level)? },
            46 => {
                let arg = self.boxed(level)?;
                if *arg == Expr::int_lit(i64::MIN) {
                    return self.fail("a minus directly on -2^63");
                }
                Expr::Unary { op: UnaryOp::Neg, arg }
            }
            47..=66 => Expr::Binary {
                op: BINARY[kind as usize - 47],
                lhs: self.boxed(level)?,
                rhs: self.boxed(level)?,
            },
            67 => Expr::IfThenElse {
                cond: self.boxed(level)?,
                then_branch: self.boxed(level)?,
                else_branch: self.boxed(level)?,
            },
            68 => Expr::Pre { arg: self.boxed(level)? },
            69 => Expr::Arrow { init: self.boxed(level)?, body: self.boxed(level)? },
            72 => Expr::Index { base: self.boxed(level)?, index: self.boxed(level)? },
            _ => Expr::Cast { to: self.typ(1)?, arg: self.boxed(level)? },
        })
    }

    /// An expression with a name; `level` is that of its operands.
    fn with_name(&mut self, kind: u8, name: String, level: usize) -> Read<Expr> {
        Ok(match kind {
            44 => Expr::Var { name },
            70 => Expr::Call { node: name, args: self.list(|r| r.expr(level))? },
            71 => Expr::Field { base: self.boxed(level)?, field: name },
            75 => Expr::Struct { ty: name, fields: self.list(|r| r.field_value(level))? },
            77 | 78 => Expr::When { arg: self.boxed(level)?, clock: name, on: kind == 77 },
            79 => Expr::Merge {
                clock: name,
                on_true: self.boxed(level)?,
                on_false: self.boxed(level)?,
            },
            _ => {
                let kind_of = if kind < 82 { IterKind::Map } else { IterKind::Fold };
                let init = if kind % 2 == 1 { Some(self.boxed(level)?) } else { None };
                let arrays = self.list(|r| r.expr(level))?;
                Expr::Iterate { kind: kind_of, node: name, init, arrays }
            }
        })
    }

    fn field_value(&mut self, level: usize) -> Read<FieldInit> {
        Ok(FieldInit { field: self.name(84)?, value: self.expr(level)? })
    }
}
