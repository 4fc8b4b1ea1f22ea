#!/usr/bin/env python3
"""mark.py LIB MARKED AMENDED: makes the marked copy of the checker out of its source file, and the amended one.

Every `diags.push(..)` becomes `diags.push_marked(..)`, eight places say which declaration or which
expression is at hand, and one says that an integer becomes an Int32 (rust/mark.rs). Nothing else
changes, no line moves, and the driver asserts on every model that the copy gives the diagnostics of
the unchanged source.
The amended copy is the marked one with the requests of document 02 that change a report. The driver
asserts on every model that the two differ in nothing but what a request lets differ.
"""
import sys

# (text that occurs exactly once, the same text with the mark)
ENTRIES = [
    # E0006 is about the package, E0007 about the enum in it
    ("            if !type_names.insert(ty.name()) {\n",
     "            let _p = mark::place(pkg); if !type_names.insert(ty.name()) {\n"),
    ("            if let TypeBody::Enum(def) = &ty.body {\n",
     "            if let TypeBody::Enum(def) = &ty.body { let _p = mark::place(ty);\n"),
    # E0001 is about the later node
    ("        if signatures\n            .insert(\n",
     "        let _p = mark::place(n); if signatures\n            .insert(\n"),
    # constants and nodes
    ("            let ctx = format!(\"constant {}\", c.name);\n",
     "            let ctx = format!(\"constant {}\", c.name); let _p = mark::place(c);\n"),
    ("    let ctx = format!(\"node {}\", node.name);\n",
     "    let ctx = format!(\"node {}\", node.name); let _p = mark::place(node);\n"),
    # the expression whose rule adds the diagnostic
    ("    tctx: &TypeContext,\n    hint: Option<&Type>,\n) -> Option<Type> {\n",
     "    tctx: &TypeContext,\n    hint: Option<&Type>,\n) -> Option<Type> { let _r = mark::rule(expr);\n"),
    ("    under_arrow_body: bool,\n    diags: &mut Vec<Diagnostic>,\n    ctx: &str,\n) {\n",
     "    under_arrow_body: bool,\n    diags: &mut Vec<Diagnostic>,\n    ctx: &str,\n) { let _r = mark::rule(expr);\n"),
    ("        e.visit(|x| {\n", "        e.visit(|x| { let _r = mark::rule(x);\n"),
    # an integer that takes no hint
    ("            return resolved;\n        }\n    }\n    Type::Int32\n",
     "            return resolved;\n        }\n    }\n    mark::int32(value); Type::Int32\n"),
]

AMENDMENTS = [
    # request 2.6: the body of an arrow is read in the same instant, and functions are searched
    ("        Expr::Arrow { init, .. } => collect_immediate_deps(init, out),\n",
     "        Expr::Arrow { init, body } => { collect_immediate_deps(init, out); collect_immediate_deps(body, out) }\n"),
    ("    if !node.is_function() {\n        if let Some(cycle) = detect_combinational_cycle(node) {\n",
     "    {\n        if let Some(cycle) = detect_combinational_cycle(node) {\n"),
    # request 2.10: a literal whose type does not hold it has none
    ("            Literal::Int { value } => integer_literal_type(*value, hint, tctx),\n",
     "            Literal::Int { value } => held(*value, integer_literal_type(*value, hint, tctx), diags, ctx)?,\n"),
    ("                return Some(integer_literal_type(-*value, hint, tctx));\n",
     "                return held(-*value, integer_literal_type(-*value, hint, tctx), diags, ctx);\n"),
    # request 2.8: a tuple type carries its number of members, and an equation is held to it
    ("                _ => Some(Type::named(\"__tuple__\")),\n", "                n => Some(tuple_of(n)),\n"),
    ("        Expr::Tuple { .. } => Some(Type::named(\"__tuple__\")),\n",
     "        Expr::Tuple { items } => Some(tuple_of(items.len())),\n"),
    ("        if let Some(rhs_ty) = inferred {\n            match eq.lhs.len() {\n",
     "        if let Some(rhs_ty) = inferred {\n            match eq.lhs.len() {"
     " _ if members(&rhs_ty).is_some() => bind_tuple(eq, &rhs_ty, &env, sigs, tctx, diags, &eq_ctx),\n"),
]

ADDED = """
fn held(value: i64, ty: Type, diags: &mut Vec<Diagnostic>, ctx: &str) -> Option<Type> {
    if fits_in_integer(value, &ty) {
        return Some(ty);
    }
    diags.push_marked(Diagnostic::error("E0095", format!("{value} fits no type")).with_context(ctx.to_string()));
    None
}

/// No name of a model holds a zero byte.
const TUPLE: &str = "__tuple__\\0";

fn tuple_of(members: usize) -> Type {
    Type::named(format!("{TUPLE}{members}"))
}

fn members(ty: &Type) -> Option<usize> {
    match ty {
        Type::Named { name } => name.strip_prefix(TUPLE).map(|n| n.parse().expect("a number")),
        _ => None,
    }
}

fn bind_tuple(
    eq: &ol_ir::Equation,
    ty: &Type,
    env: &BTreeMap<String, Type>,
    sigs: &HashMap<String, (Vec<Port>, Vec<Port>, NodeKind)>,
    tctx: &TypeContext,
    diags: &mut Vec<Diagnostic>,
    ctx: &str,
) {
    if members(ty) != Some(eq.lhs.len()) {
        diags.push_marked(Diagnostic::error("E0042", "another number of members than names").with_context(ctx.to_string()));
        return;
    }
    let Expr::Call { node: callee, .. } = &eq.rhs else { return };
    assert_eq!(sigs[callee].1.len(), eq.lhs.len(), "a call has as many members as outputs");
    for (name, output) in eq.lhs.iter().zip(&sigs[callee].1) {
        let fits = |want| types_compatible(tctx, want, &output.ty);
        if !env.get(name).map_or(true, fits) {
            let message = format!("name `{name}` is not of its output's type");
            diags.push_marked(Diagnostic::error("E0043", message).with_context(ctx.to_string()));
        }
    }
}
"""


def replaced(text, entries):
    """The text with each entry's first part, which occurs once, replaced by its second."""
    for old, new in entries:
        if text.count(old) != 1:
            raise SystemExit(f"mark.py: not exactly once in the source: {old!r}")
        text = text.replace(old, new)
    return text


def marked(text):
    pushes = text.count("diags.push(")
    made = text.count("Diagnostic::error(") + text.count("Diagnostic::warning(")
    if pushes == 0 or pushes != made:
        raise SystemExit(f"mark.py: {pushes} pushes, {made} diagnostics made")
    return replaced(text, ENTRIES).replace("diags.push(", "diags.push_marked(") + "\npub mod mark;\nuse mark::Marked;\n"


def main():
    source, plain, amended = sys.argv[1:]
    with open(source, encoding="utf-8") as f:
        text = marked(f.read())
    for target, copy in ((plain, text), (amended, replaced(text, AMENDMENTS) + ADDED)):
        with open(target, "w", encoding="utf-8") as f:
            f.write(copy)


main()
