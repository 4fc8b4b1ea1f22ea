//! Models of a special style: graphs of reads, chains and cycles of aliases, depth, collisions of
//! declarations.
use ol_ir::*;

use crate::express::array;
use crate::gen::fill;
use crate::names::{Names, SORTS};
use crate::records::BASIC;
use crate::rng::Rng;

pub fn package(types: Vec<TypeDecl>, constants: Vec<ConstantDef>, nodes: Vec<NodeDef>) -> Package {
    Package { name: "p".into(), types, constants, nodes }
}

pub fn alias(name: &str, target: Type) -> TypeDecl {
    TypeDecl { body: TypeBody::Alias { name: name.into(), target } }
}

pub fn port(name: &str, ty: &Type) -> Port {
    Port { name: name.into(), ty: ty.clone() }
}

pub fn node(name: &str, kind: NodeKind, inputs: Vec<Port>, outputs: Vec<Port>) -> NodeDef {
    NodeDef {
        name: name.into(),
        kind,
        inputs,
        outputs,
        locals: vec![],
        equations: vec![],
        contract: None,
        diagram: Default::default(),
        probes: vec![],
    }
}

/// One or two operators whose equations only read names: loops of all lengths, and none.
pub fn graph(rng: &mut Rng) -> Project {
    let count = rng.weighted(&[0, 70, 25, 5]);
    let nodes = (0..count).map(|i| graph_node(rng, &format!("n{i}"))).collect();
    Project { packages: vec![package(vec![], vec![], nodes)] }
}

fn graph_node(rng: &mut Rng, name: &str) -> NodeDef {
    let kind = if rng.percent(92) { NodeKind::Operator } else { NodeKind::Function };
    let mut all: Vec<String> = ["a", "b", "c", "d", "e", "f", "ab", "B", "aa", "é"].iter().map(|s| s.to_string()).collect();
    rng.shuffle(&mut all);
    all.truncate(rng.range(2, 9));
    let ty = Type::Int32;
    let mut n = node(name, kind, vec![port("i", &ty)], vec![port(&all[0], &ty)]);
    n.locals = all[1..].iter().map(|x| Local { name: x.clone(), ty: ty.clone() }).collect();
    let ordered = rng.percent(55);
    let density = rng.range(0, 3);
    for at in 0..all.len() {
        let mut lhs = vec![all[at].clone()];
        if rng.percent(8) {
            lhs.push(rng.pick(&all).clone());
        }
        let from = if ordered { at + 1 } else { 0 };
        let rhs = sum(rng, &all, from, density);
        n.equations.push(Equation { lhs, rhs });
    }
    rng.shuffle(&mut n.equations);
    if rng.percent(15) {
        let last = n.equations.len() - 1;
        n.equations[last].lhs = vec![];
    }
    n
}

/// A sum of names from `from` on, at times under an operator that hides or shows them.
fn sum(rng: &mut Rng, all: &[String], from: usize, density: usize) -> Expr {
    let mut rhs = if rng.percent(60) { Expr::int_lit(0) } else { Expr::var("i") };
    for _ in 0..rng.range(0, density + 1) {
        let mut item = if from < all.len() {
            Expr::var(all[rng.range(from, all.len() - 1)].as_str())
        } else {
            Expr::int_lit(1)
        };
        let hidden = Expr::var(rng.pick(all).as_str());
        item = match rng.below(24) {
            0 => Expr::pre(hidden),
            1 | 11 => Expr::arrow(Expr::int_lit(0), hidden),
            2 => Expr::arrow(item, Expr::int_lit(0)),
            3 => Expr::when(item, rng.pick(all).as_str(), true),
            4 => Expr::merge(rng.pick(all).as_str(), Expr::int_lit(2), item),
            5 => Expr::Tuple { items: vec![item] },
            6 => Expr::call("n0", vec![item]),
            7 => Expr::map("n0", vec![item]),
            8 => Expr::Iterate { kind: IterKind::Map, node: "i".into(), init: Some(Box::new(item)), arrays: vec![] },
            9 => Expr::structure("i", vec![FieldInit { field: "i".into(), value: item }]),
            10 => Expr::cast(Type::Int32, item),
            _ => item,
        };
        rhs = if rng.percent(50) { Expr::bin(BinOp::Add, rhs, item) } else { Expr::bin(BinOp::Sub, item, rhs) };
    }
    rhs
}

/// Aliases: long chains around the limit of 64, short cycles, arrays on the way, and uses.
pub fn aliases(rng: &mut Rng) -> Project {
    let long = rng.percent(60);
    let count = if long { rng.range(63, 66) } else { rng.range(2, 7) };
    let name = |i: usize| format!("t{i:02}");
    let mut types = Vec::new();
    for i in 0..count {
        let cyclic = !long && rng.percent(25);
        let mut target = match i + 1 {
            _ if cyclic => Type::named(name(rng.below(count))),
            next if next < count => Type::named(name(next)),
            _ => rng.pick(&[Type::Int32, Type::Int8, Type::Bool, Type::named("S")]).clone(),
        };
        if rng.percent(if long { 2 } else { 15 }) {
            target = array(target, rng.below(3) as u32);
        }
        types.push(alias(&name(i), target));
    }
    if rng.percent(50) {
        rng.shuffle(&mut types);
    }
    if rng.percent(40) {
        let fields = vec![RecordField { name: "u".into(), ty: Type::named(name(0)) }];
        let record = if rng.percent(50) { "S".to_string() } else { name(rng.below(count)) };
        types.push(TypeDecl { body: TypeBody::Record { name: record, fields } });
    }
    let ports = (0..3).map(|i| port(["a", "b", "c"][i], &Type::named(name(rng.below(count.min(4))))));
    let ports: Vec<Port> = ports.collect();
    let mut n = node("n", NodeKind::Operator, ports[..1].to_vec(), ports[1..].to_vec());
    n.locals.push(Local { name: "d".into(), ty: rng.pick(&[Type::Int8, Type::Int32]).clone() });
    let palette: Vec<Type> = ports.iter().map(|p| p.ty.clone()).collect();
    let mut project = Project { packages: vec![package(types, vec![], vec![n])] };
    let names = Names::new(rng);
    fill(rng, &names, &palette, &mut project, 38);
    project
}

/// Types and expressions around the limits of levels.
pub fn deep(rng: &mut Rng) -> Project {
    let mut ty = rng.pick(&BASIC).clone();
    let levels = if rng.percent(50) { rng.range(60, 68) } else { rng.range(1, 12) };
    for _ in 1..levels {
        ty = array(ty, 1);
    }
    let element = if let Type::Array { elem, .. } = &ty { (**elem).clone() } else { ty.clone() };
    let mut n = node("n", NodeKind::Operator, vec![port("a", &ty), port("b", &Type::Bool)], vec![port("x", &element)]);
    n.locals.push(Local { name: "y".into(), ty: Type::named("T") });
    let f = node("f", NodeKind::Function, vec![port("a", &Type::Int32)], vec![port("x", &Type::Int32)]);
    for name in ["x", "y"] {
        let levels = if rng.percent(60) { rng.range(50, 60) } else { rng.range(2, 30) };
        let rhs = nest(rng, levels);
        n.equations.push(Equation { lhs: vec![name.into()], rhs });
    }
    Project { packages: vec![package(vec![alias("T", ty)], vec![], vec![f, n])] }
}

/// An expression of this many levels.
fn nest(rng: &mut Rng, levels: usize) -> Expr {
    let start = rng.pick(&[Expr::var("a"), Expr::var("b"), Expr::int_lit(1), Expr::array(vec![])]).clone();
    let start = if start == Expr::array(vec![]) || rng.percent(80) { start } else { Expr::int_lit(200) };
    let mixed = rng.percent(30);
    let mut how = rng.below(10);
    let mut e = start;
    for _ in 1..levels {
        if mixed {
            how = rng.below(10);
        }
        let inner = Box::new(e);
        e = match how {
            0 => Expr::Unary { op: UnaryOp::Not, arg: inner },
            1 => Expr::Unary { op: UnaryOp::Neg, arg: inner },
            2 => Expr::Pre { arg: inner },
            3 | 4 => Expr::Array { items: vec![*inner] },
            5 => Expr::Index { base: inner, index: Box::new(Expr::int_lit(0)) },
            6 => Expr::map("f", vec![*inner]),
            7 => Expr::call("f", vec![*inner]),
            8 => Expr::When { arg: inner, clock: "b".into(), on: true },
            _ => Expr::Arrow { init: Box::new(Expr::var("a")), body: inner },
        };
    }
    e
}

/// Declarations that collide: two or three names for everything, several packages.
pub fn declarations(rng: &mut Rng) -> Project {
    let names = ["A", "B", "a"];
    let name = |rng: &mut Rng| names[rng.below(3)].to_string();
    let some_type = |rng: &mut Rng| match rng.below(5) {
        0 => Type::Int8,
        1 => Type::Bool,
        2 => array(Type::named(names[rng.below(3)]), 1),
        _ => Type::named(names[rng.below(3)]),
    };
    let mut project = Project::default();
    for _ in 0..rng.range(1, 3) {
        let mut pkg = package(vec![], vec![], vec![]);
        pkg.name = name(rng);
        for _ in 0..rng.range(1, 3) {
            let own = name(rng);
            let body = match rng.below(3) {
                0 => TypeBody::Alias { name: own, target: some_type(rng) },
                1 => {
                    let count = rng.below(4);
                    let field = |_| RecordField { name: name(rng), ty: some_type(rng) };
                    TypeBody::Record { name: own, fields: (0..count).map(field).collect() }
                }
                _ => TypeBody::Enum(EnumDef { name: own, variants: (0..rng.below(4)).map(|_| name(rng)).collect() }),
            };
            pkg.types.push(TypeDecl { body });
        }
        for _ in 0..rng.below(3) {
            let value = Expr::bool_lit(true);
            pkg.constants.push(ConstantDef { name: name(rng), ty: some_type(rng), value });
        }
        for _ in 0..rng.below(3) {
            let kind = *rng.pick(&[NodeKind::Function, NodeKind::Operator, NodeKind::Imported]);
            let mut n = node(&name(rng), kind, vec![], vec![]);
            n.inputs = (0..rng.below(3)).map(|_| port(&name(rng), &some_type(rng))).collect();
            n.outputs = (0..rng.below(3)).map(|_| port(&name(rng), &some_type(rng))).collect();
            pkg.nodes.push(n);
        }
        project.packages.push(pkg);
    }
    let pool = Names::of(&names);
    let palette = [Type::named("A"), Type::named("B"), Type::Int8, array(Type::named("A"), 1)];
    fill(rng, &pool, &palette, &mut project, 38);
    project
}

/// Names of `suited`, by sort.
const SUITED: [&[&str]; SORTS] = [
    &["p"],
    &["A", "R", "S", "E"],
    &["u", "v", "w"],
    &["p", "q"],
    &["k", "p"],
    &["f", "g", "n"],
    &["a", "b", "c", "d", "e", "i", "j", "l", "m"],
];

/// Declarations that suit each other: a record, a function to fold and one to map, and a node whose
/// ports have their types, so that a construct in it is well typed but for its one fault.
pub fn suited(rng: &mut Rng) -> Project {
    let usual = [Type::Int32, Type::Bool, Type::Int8, Type::Uint16, Type::Float64, Type::Float32, Type::Char];
    let a = rng.pick(&usual).clone();
    let b = if rng.percent(40) { a.clone() } else { rng.pick(&usual).clone() };
    let mut types = Vec::new();
    let named_a = if rng.percent(45) {
        types.push(alias("A", a.clone()));
        Type::named("A")
    } else {
        a.clone()
    };
    let len = rng.weighted(&[8, 32, 47, 13]) as u32;
    let mut palette = vec![named_a.clone(), b.clone(), Type::Bool];
    for elem in [&named_a, &b] {
        palette.push(array(elem.clone(), len));
    }
    if rng.percent(65) {
        suited_types(rng, &palette.clone(), &mut types, &mut palette);
    }
    let mut nodes = Vec::new();
    if rng.percent(75) {
        nodes.push(to_fold(rng, &named_a, &a, &b));
    }
    if nodes.is_empty() || rng.percent(45) {
        nodes.push(to_map(rng, &palette));
    }
    nodes.push(under_test(rng, &palette));
    let mut project = Project { packages: vec![package(types, vec![], nodes)] };
    if rng.percent(20) {
        let (ty, value) = (rng.pick(&palette).clone(), Expr::bool_lit(true));
        project.packages[0].constants.push(ConstantDef { name: "k".into(), ty, value });
    }
    fill(rng, &Names::by_sort(SUITED, 2), &palette, &mut project, 75);
    short_bodies(rng, &mut project);
    project
}

/// f(x: A, y: B) -> z: A, now and then with another output or one more input.
fn to_fold(rng: &mut Rng, named_a: &Type, a: &Type, b: &Type) -> NodeDef {
    let out = if rng.percent(88) { a } else { b };
    let mut inputs = vec![port("x", named_a), port("y", b)];
    if rng.percent(20) {
        inputs.push(port("w", b));
    }
    node("f", NodeKind::Function, inputs, vec![port("z", out)])
}

fn to_map(rng: &mut Rng, palette: &[Type]) -> NodeDef {
    let count = rng.weighted(&[22, 32, 40, 6]);
    let inputs = (0..count).map(|i| port(["x", "y", "w"][i], rng.pick(palette))).collect();
    let kind = *rng.pick(&[NodeKind::Function, NodeKind::Function, NodeKind::Operator, NodeKind::Imported]);
    let count = rng.weighted(&[9, 80, 11]);
    let outputs = (0..count).map(|i| port(["z", "t"][i], rng.pick(palette))).collect();
    node("g", kind, inputs, outputs)
}

fn suited_types(rng: &mut Rng, from: &[Type], types: &mut Vec<TypeDecl>, palette: &mut Vec<Type>) {
    let count = rng.range(1, 3);
    let field = |i: usize| RecordField { name: ["u", "v", "u"][i].into(), ty: rng.pick(from).clone() };
    let fields = (0..count).map(field).collect();
    types.push(TypeDecl { body: TypeBody::Record { name: "R".into(), fields } });
    palette.push(Type::named("R"));
    if rng.percent(40) {
        types.push(alias("S", Type::named("R")));
        palette.push(Type::named("S"));
    }
    if rng.percent(20) {
        let variants = vec!["p".into(), "q".into()];
        types.push(TypeDecl { body: TypeBody::Enum(EnumDef { name: "E".into(), variants }) });
        palette.push(Type::named("E"));
    }
}

fn under_test(rng: &mut Rng, palette: &[Type]) -> NodeDef {
    let kind = if rng.percent(70) { NodeKind::Operator } else { NodeKind::Function };
    let mut inputs: Vec<Type> = palette.to_vec();
    rng.shuffle(&mut inputs);
    inputs.truncate(rng.range(2, 5));
    let inputs = inputs.iter().enumerate().map(|(i, t)| port(["a", "b", "c", "d", "e"][i], t)).collect();
    let outputs = (0..rng.range(1, 3)).map(|i| port(["i", "j", "k"][i], rng.pick(palette))).collect();
    let mut n = node("n", kind, inputs, outputs);
    let locals = 0..rng.range(1, 2);
    n.locals = locals.map(|i| Local { name: ["l", "m"][i].into(), ty: rng.pick(palette).clone() }).collect();
    n
}

/// The helpers mostly get short bodies, to keep the model small.
fn short_bodies(rng: &mut Rng, project: &mut Project) {
    for n in &mut project.packages[0].nodes {
        if n.name == "n" || n.kind == NodeKind::Imported || rng.percent(20) {
            continue;
        }
        n.locals.clear();
        let ports = n.inputs.iter();
        let value = |o: &Port| ports.clone().find(|i| i.ty == o.ty).map_or("x", |i| &i.name);
        let equation = |o: &Port| Equation { lhs: vec![o.name.clone()], rhs: Expr::var(value(o)) };
        n.equations = n.outputs.iter().map(equation).collect();
    }
}
