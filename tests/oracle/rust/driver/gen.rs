//! Random models, small and rich. A model is a project of one of several styles, written as
//! records, and in part of the cases then changed in one to three records.
use ol_ir::*;
use ol_typecheck::TypeContext;

use crate::express::{array, Maker, Signatures};
use crate::hints::hints;
use crate::names::{Names, Sort};
use crate::read;
use crate::records::{write, Model, BASIC};
use crate::rng::Rng;
use crate::special;
use crate::tuples::tuples;

/// Every code that can appear, the ones with several rules more than once.
const CODES: [u64; 69] = [
    1, 2, 3, 4, 5, 6, 7, 8, 10, 11, 12, 20, 21, 22, 30, 40, 41, 42, 43, 50, 51, 60, 70, 80, 80, 81, 82, 83, 84, 85,
    86, 87, 90, 91, 92, 93, 94, 95, 100, 101, 102, 103, 110, 111, 120, 121, 122, 123, 124, 125, 126, 127, 128, 130, 131, 140,
    141, 142, 143, 144, 145, 145, 145, 145, 145, 145, 146, 146, 150,
];

/// The model with this number of the series that a seed gives. Each third one is drawn again, up
/// to a limit, until it shows the code whose turn it is.
pub fn model(seed: u64, index: u64, shows: impl Fn(&Model, u64) -> bool) -> Model {
    let mut rng = Rng::new(seed.wrapping_mul(0x1000_0000_01B3).wrapping_add(index << 20));
    let mut model = draw(&mut rng);
    if index % 3 == 0 {
        let code = CODES[(index / 3) as usize % CODES.len()];
        for _ in 0..400 {
            if shows(&model, code) {
                break;
            }
            model = draw(&mut rng);
        }
    }
    model
}

fn draw(rng: &mut Rng) -> Model {
    let most = if rng.percent(12) { 200 } else { 80 };
    loop {
        let style = rng.weighted(&[21, 5, 7, 4, 2, 4, 29, 24, 8]);
        let (mut project, most) = match style {
            0 => (general(rng, false), most),
            1 => (general(rng, true), most),
            2 => (special::graph(rng), most),
            3 => (special::aliases(rng), 200),
            4 => (special::deep(rng), 200),
            5 => (special::declarations(rng), most),
            6 => (special::suited(rng), most.max(95)),
            7 => (hints(rng), most.max(95)),
            _ => (tuples(rng), most.max(95)),
        };
        if rng.percent(75) {
            fit(rng, &mut project);
        }
        let unused: Vec<String> = if rng.percent(5) { vec!["zz".into(), "0".into()] } else { vec![] };
        let mut model = write(&project, &unused);
        if rng.percent(40) {
            change(rng, &mut model);
        }
        if model.kinds.len() <= most && in_domain(&model) {
            return model;
        }
    }
}

fn in_domain(model: &Model) -> bool {
    read::names_of(&model.text).and_then(|names| read::read(model, &names)).is_ok()
}

/// Gives some of the names that equations define the type that the equation's value has, so that
/// what a rule gives as type shows.
fn fit(rng: &mut Rng, project: &mut Project) {
    let header = project.clone();
    let typer = ol_typecheck::ExprTyper::new(&header);
    for n in project.packages.iter_mut().flat_map(|p| p.nodes.iter_mut()) {
        let env = ol_typecheck::ExprTyper::env(n);
        for eq in n.equations.clone() {
            let Some(ty) = typer.type_of(n, &env, &eq.rhs).filter(|_| eq.lhs.len() == 1 && rng.percent(75)) else {
                continue;
            };
            if matches!(&ty, Type::Named { name } if name.starts_with("__")) {
                continue;
            }
            n.outputs.iter_mut().filter(|p| p.name == eq.lhs[0]).for_each(|p| p.ty = ty.clone());
            n.locals.iter_mut().filter(|l| l.name == eq.lhs[0]).for_each(|l| l.ty = ty.clone());
        }
    }
}

/// Changes one to three records to others that can stand in their place.
fn change(rng: &mut Rng, model: &mut Model) {
    let names = model.text.iter().filter(|b| **b == 0).count();
    for _ in 0..rng.range(1, 3) {
        let at = rng.below(model.kinds.len());
        let kind = model.kinds[at];
        let swap = |rng: &mut Rng, kinds: &[u8]| *rng.pick(kinds);
        let named = matches!(kind, 2 | 4..=12 | 33 | 44 | 70 | 71 | 75 | 77..=84);
        if named && names > 0 && rng.percent(70) {
            model.words[at] = rng.below(names) as u64;
            continue;
        }
        model.kinds[at] = match kind {
            10..=12 => swap(rng, &[10, 11, 12]),
            20..=31 => rng.range(20, 31) as u8,
            45 | 46 | 68 => swap(rng, &[45, 46, 68]),
            47..=66 | 69 | 72 => swap(rng, &[47, 50, 51, 52, 53, 56, 57, 60, 61, 62, 65, 66, 69, 72]),
            71 | 77 | 78 => swap(rng, &[71, 77, 78]),
            73 | 74 => swap(rng, &[73, 74]),
            80 | 82 => swap(rng, &[80, 82, 70]),
            81 | 83 => swap(rng, &[81, 83]),
            32 => {
                model.words[at] = *rng.pick(&[0, 1, 2, 3, u64::from(u32::MAX)]);
                32
            }
            40 | 41 | 43 => {
                model.words[at] = rng.below(2) as u64;
                swap(rng, &[40, 41, 43])
            }
            other => other,
        };
    }
}

/// A project with all sorts of declarations; `wild` if its expressions aim at no type.
fn general(rng: &mut Rng, wild: bool) -> Project {
    let names = Names::new(rng);
    let mut project = Project::default();
    for _ in 0..rng.weighted(&[1, 66, 27, 6]) {
        let types = (0..rng.weighted(&[25, 28, 24, 15, 8])).map(|_| type_declaration(rng, &names)).collect();
        let name = names.pick(rng, Sort::Package);
        project.packages.push(Package { name, types, ..Package::default() });
    }
    let palette = palette(rng, &names, &project);
    for pkg in &mut project.packages {
        for _ in 0..rng.weighted(&[45, 30, 18, 7]) {
            let ty = port_type(rng, &names, &palette);
            let value = Expr::bool_lit(false);
            pkg.constants.push(ConstantDef { name: names.pick(rng, Sort::Constant), ty, value });
        }
        for _ in 0..rng.weighted(&[6, 34, 36, 24]) {
            pkg.nodes.push(node_header(rng, &names, &palette));
        }
    }
    fill(rng, &names, &palette, &mut project, if wild { WILD } else { FOCUS });
    project
}

fn type_declaration(rng: &mut Rng, names: &Names) -> TypeDecl {
    let name = names.pick(rng, Sort::Type);
    let body = match rng.weighted(&[42, 33, 25]) {
        0 => TypeBody::Alias { name, target: any_type(rng, names, 3) },
        1 => {
            let mut taken = Vec::new();
            for _ in 0..rng.weighted(&[8, 37, 40, 15]) {
                taken.push(name_of(rng, names, Sort::Field, &taken));
            }
            let field = |name| RecordField { name, ty: any_type(rng, names, 2) };
            TypeBody::Record { name, fields: taken.into_iter().map(field).collect() }
        }
        _ => {
            let count = rng.weighted(&[5, 25, 45, 25]);
            let variants = (0..count).map(|_| names.pick(rng, Sort::Variant)).collect();
            TypeBody::Enum(EnumDef { name, variants })
        }
    };
    TypeDecl { body }
}

/// Mostly a name that is not taken.
fn name_of(rng: &mut Rng, names: &Names, sort: Sort, taken: &[String]) -> String {
    if rng.percent(94) {
        names.fresh(rng, sort, taken)
    } else {
        names.pick(rng, sort)
    }
}

fn any_type(rng: &mut Rng, names: &Names, depth: usize) -> Type {
    match rng.weighted(&[55, 28, if depth > 0 { 17 } else { 0 }]) {
        0 if rng.percent(55) => rng.pick(&[Type::Bool, Type::Int32, Type::Int8]).clone(),
        0 => rng.pick(&BASIC).clone(),
        1 => Type::named(names.pick(rng, Sort::Type)),
        _ => {
            let len = *rng.pick(&[0, 1, 1, 2, 2, 2, 3, u32::MAX]);
            array(any_type(rng, names, depth - 1), len)
        }
    }
}

/// The few types that the ports of a model have.
fn palette(rng: &mut Rng, names: &Names, project: &Project) -> Vec<Type> {
    let declared: Vec<&str> = project.packages.iter().flat_map(|p| p.types.iter().map(|t| t.name())).collect();
    let mut palette = vec![Type::Bool];
    for _ in 0..rng.range(2, 4) {
        let ty = match rng.weighted(&[40, if declared.is_empty() { 0 } else { 40 }, 20]) {
            0 => rng.pick(&BASIC).clone(),
            1 => Type::named(*rng.pick(&declared)),
            _ => any_type(rng, names, 2),
        };
        if rng.percent(45) {
            palette.push(array(ty.clone(), rng.below(3) as u32 + 1));
        }
        palette.push(ty);
    }
    palette
}

fn port_type(rng: &mut Rng, names: &Names, palette: &[Type]) -> Type {
    if rng.percent(88) {
        rng.pick(palette).clone()
    } else {
        any_type(rng, names, 2)
    }
}

fn blank(name: String, kind: NodeKind) -> NodeDef {
    NodeDef {
        name,
        kind,
        inputs: vec![],
        outputs: vec![],
        locals: vec![],
        equations: vec![],
        contract: None,
        diagram: Default::default(),
        probes: vec![],
    }
}

/// A node without its body.
fn node_header(rng: &mut Rng, names: &Names, palette: &[Type]) -> NodeDef {
    let kind = match rng.weighted(&[44, 42, 14]) {
        0 => NodeKind::Function,
        1 => NodeKind::Operator,
        _ => NodeKind::Imported,
    };
    let mut node = blank(names.pick(rng, Sort::Node), kind);
    let fold = rng.percent(22);
    let inputs = if fold { 2 } else { rng.weighted(&[12, 38, 36, 14]) };
    let outputs = if fold { 1 } else { rng.weighted(&[9, 67, 18, 6]) };
    let locals = if kind == NodeKind::Imported { rng.below(2) } else { rng.weighted(&[35, 35, 20, 10]) };
    let mut taken = Vec::new();
    for i in 0..inputs + outputs + locals {
        let name = name_of(rng, names, Sort::Variable, &taken);
        let mut ty = port_type(rng, names, palette);
        if fold && i == inputs && rng.percent(90) {
            ty = node.inputs[0].ty.clone();
        }
        taken.push(name.clone());
        if i < inputs {
            node.inputs.push(Port { name, ty });
        } else if i < inputs + outputs {
            node.outputs.push(Port { name, ty });
        } else {
            node.locals.push(Local { name, ty });
        }
    }
    for _ in 0..rng.weighted(&[70, 22, 8]) {
        let var = names.fresh(rng, Sort::Variable, &[]);
        node.probes.push(Probe { label: String::new(), var });
    }
    node
}

/// Percent of right-hand sides that are one construct with a single fault; `WILD` for expressions
/// that aim at no type.
const FOCUS: usize = 38;
const WILD: usize = 101;

/// Makes the constants' values and the nodes' equations.
pub fn fill(rng: &mut Rng, names: &Names, palette: &[Type], project: &mut Project, focus: usize) {
    let header = project.clone();
    let types = TypeContext::from_project(&header);
    let signatures: Signatures = header.all_nodes()
        .map(|n| (n.name.clone(), (n.inputs.clone(), n.outputs.clone(), n.kind)))
        .collect();
    let (records, constants, variants) = in_force(&header);
    let errors = *rng.pick(&[0, 0, 2, 5, 12, 30]);
    let theme = rng.below(4);
    let mut maker = Maker {
        rng,
        names,
        palette,
        types: &types,
        records: &records,
        constants: &constants,
        variants: &variants,
        signatures: &signatures,
        ports: Default::default(),
        readable: vec![],
        function: true,
        errors,
        fuel: 0,
        later: 0,
        theme,
    };
    for pkg in &mut project.packages {
        for c in &mut pkg.constants {
            maker.fuel = 6;
            c.value = match maker.rng.below(5) {
                _ if focus == WILD => maker.wild(1),
                0 => maker.focused(1),
                _ => maker.typed(&c.ty, true, 1),
            };
        }
    }
    for pkg in &mut project.packages {
        for n in &mut pkg.nodes {
            body(&mut maker, n, focus);
        }
    }
}

type InForce = (Vec<(String, Vec<RecordField>)>, Vec<(String, Type)>, Vec<(String, String)>);

/// Records, constants and variants of a project; of equal names the last.
fn in_force(project: &Project) -> InForce {
    fn put<T>(items: &mut Vec<(String, T)>, name: &str, value: T) {
        items.retain(|(n, _)| n != name);
        items.push((name.to_string(), value));
    }
    let (mut records, mut constants, mut variants) = (vec![], vec![], vec![]);
    for pkg in &project.packages {
        for t in &pkg.types {
            match &t.body {
                TypeBody::Record { name, fields } => put(&mut records, name, fields.clone()),
                TypeBody::Enum(e) => e.variants.iter().for_each(|v| put(&mut variants, v, e.name.clone())),
                TypeBody::Alias { .. } => {}
            }
        }
        pkg.constants.iter().for_each(|c| put(&mut constants, &c.name, c.ty.clone()));
    }
    (records, constants, variants)
}

fn body(maker: &mut Maker, node: &mut NodeDef, focus: usize) {
    if node.kind == NodeKind::Imported && maker.rng.percent(75) {
        return;
    }
    maker.function = node.kind == NodeKind::Function;
    maker.ports = node.inputs.iter().chain(&node.outputs).map(|p| (p.name.clone(), p.ty.clone())).collect();
    maker.ports.extend(node.locals.iter().map(|l| (l.name.clone(), l.ty.clone())));
    let ordered = maker.rng.percent(70);
    maker.readable = if ordered {
        node.inputs.iter().map(|p| p.name.clone()).collect()
    } else {
        maker.ports.keys().cloned().collect()
    };
    let mut targets: Vec<String> = node.outputs.iter().map(|p| p.name.clone()).collect();
    targets.extend(node.locals.iter().map(|l| l.name.clone()));
    maker.rng.shuffle(&mut targets);
    upset(maker, node, &mut targets);
    while let Some(first) = targets.pop() {
        let mut lhs = vec![first];
        while !targets.is_empty() && lhs.len() < 3 && maker.rng.percent(14) {
            lhs.push(targets.pop().unwrap());
        }
        let rhs = right_hand_side(maker, &lhs, focus);
        maker.readable.extend(lhs.iter().cloned());
        node.equations.push(Equation { lhs, rhs });
    }
    if maker.rng.percent(3) {
        let rhs = if maker.rng.percent(50) { maker.several() } else { maker.wild(3) };
        node.equations.push(Equation { lhs: vec![], rhs });
    }
    if maker.rng.percent(30) {
        maker.rng.shuffle(&mut node.equations);
    }
}

/// Now and then a target is left out, named twice, an input, or unknown.
fn upset(maker: &mut Maker, node: &NodeDef, targets: &mut Vec<String>) {
    if maker.rng.percent(12) {
        targets.pop();
    }
    if maker.rng.percent(8) && !targets.is_empty() {
        targets.push(targets[0].clone());
    }
    if maker.rng.percent(6) && !node.inputs.is_empty() {
        targets.push(maker.rng.pick(&node.inputs).name.clone());
    }
    if maker.rng.percent(8) {
        targets.push(maker.names.any(maker.rng));
    }
    maker.rng.shuffle(targets);
}

fn right_hand_side(maker: &mut Maker, lhs: &[String], focus: usize) -> Expr {
    maker.fuel = maker.rng.range(2, 14) as i64;
    if focus == WILD {
        return maker.wild(1);
    }
    if lhs.len() > 1 && maker.rng.percent(85) {
        return maker.several();
    }
    let without_output = maker.nodes(|_, o, _| o.is_empty());
    if !without_output.is_empty() && maker.rng.percent(15) {
        let node = maker.rng.pick(&without_output).clone();
        return maker.call_of(node, 1);
    }
    if maker.rng.percent(focus) {
        return maker.focused(1);
    }
    match maker.ports.get(&lhs[0]).cloned() {
        Some(ty) => maker.typed(&ty, true, 1),
        None => {
            let ty = maker.any_type();
            maker.typed(&ty, false, 1)
        }
    }
}
