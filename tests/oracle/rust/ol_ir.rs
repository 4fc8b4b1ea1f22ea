//! The crate `ol_ir` as far as the type checker needs it. The four modules below are the given
//! files, unchanged; everything else in this file stands in for what was not delivered.
pub mod diag;
pub mod expr;
pub mod node;
pub mod types;

pub use diag::{Diagnostic, Severity, SourceSpan};
pub use expr::{BinOp, Expr, FieldInit, IterKind, Literal, UnaryOp};
pub use node::{Equation, Local, NodeDef, NodeKind, Port, Probe};
pub use types::Type;

use std::collections::HashMap;

#[derive(Debug, Clone, Default)]
pub struct Project {
    pub packages: Vec<Package>,
}

#[derive(Debug, Clone, Default)]
pub struct Package {
    pub name: String,
    pub types: Vec<TypeDecl>,
    pub constants: Vec<ConstantDef>,
    pub nodes: Vec<NodeDef>,
}

#[derive(Debug, Clone)]
pub struct TypeDecl {
    pub body: TypeBody,
}

#[derive(Debug, Clone)]
pub enum TypeBody {
    Alias { name: String, target: Type },
    Record { name: String, fields: Vec<RecordField> },
    Enum(EnumDef),
}

#[derive(Debug, Clone)]
pub struct RecordField {
    pub name: String,
    pub ty: Type,
}

#[derive(Debug, Clone)]
pub struct EnumDef {
    pub name: String,
    pub variants: Vec<String>,
}

#[derive(Debug, Clone)]
pub struct ConstantDef {
    pub name: String,
    pub ty: Type,
    pub value: Expr,
}

impl Project {
    /// Nodes go package by package, in order of declaration.
    pub fn all_nodes(&self) -> impl Iterator<Item = &NodeDef> {
        self.packages.iter().flat_map(|p| p.nodes.iter())
    }
}

impl TypeDecl {
    pub fn name(&self) -> &str {
        match &self.body {
            TypeBody::Alias { name, .. } | TypeBody::Record { name, .. } => name,
            TypeBody::Enum(e) => &e.name,
        }
    }
}

/// Clock inference is not delivered and not compared: no node counts as clocked, so E0132 to
/// E0135 never appear and `infer_clocks` is never called.
pub fn node_uses_clocks(_node: &NodeDef) -> bool {
    false
}

#[derive(Debug, Clone, PartialEq)]
pub struct Clock;

impl Clock {
    pub fn is_base(&self) -> bool {
        true
    }
    pub fn describe(&self) -> String {
        String::from("the base clock")
    }
}

pub struct ClockError {
    pub equation: Option<usize>,
    pub message: String,
}

pub struct ClockInfo {
    pub errors: Vec<ClockError>,
    pub equation_clocks: Vec<Clock>,
    pub call_clocks: HashMap<usize, Clock>,
}

pub fn infer_clocks(_node: &NodeDef) -> ClockInfo {
    unreachable!("no node uses clocks here")
}

pub mod declock {
    /// Named by the expression typer only, which is not compared.
    pub const CONDACT: &str = "condact";
}
