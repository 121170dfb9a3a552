// SPDX-License-Identifier: MIT OR Apache-2.0
//! `sofa::ffi` repeats include/sofa.h, and a C compiler is asked whether it does: of each struct the size, the alignment, and the place and type
//! of each field; of each call the types of its arguments and of its answer; and the numbers that stand in both. That no struct, field, or
//! argument is left out or in another order is read off the header's text.
use sofa::ffi::{BoundingBox, Filtered, Found, Inserted, Loaded, Lookup, Part, Refused, Six, Sizes, Value};
use sofa::{stack, Kind};
use std::any::type_name;
use std::io::Write;
use std::mem::{align_of, offset_of, size_of};
use std::process::{Command, Stdio};

const HEADER: &str = include_str!("../../../include/sofa.h");
const BINDINGS: &str = include_str!("../src/ffi.rs");

struct Field {
    name: &'static str,
    rust: &'static str,
    place: usize,
}

struct Struct {
    name: &'static str,
    rust: &'static str,
    size: usize,
    align: usize,
    fields: Vec<Field>,
}

fn type_at<S, F>(_: fn(&S) -> &F) -> &'static str {
    type_name::<F>().rsplit("::").next().unwrap()
}

/// A struct by its name in C and in Rust; a field as `name`, or as `(name in Rust, name in C)`.
macro_rules! layout {
    (@name ($rust:ident $c:ident)) => { stringify!($c) };
    (@name $name:ident) => { stringify!($name) };
    (@field $s:ident ($rust:ident $c:ident)) => { (type_at(|s: &$s| &s.$rust), offset_of!($s, $rust)) };
    (@field $s:ident $name:ident) => { (type_at(|s: &$s| &s.$name), offset_of!($s, $name)) };
    ($c:ident $rust:ident: $($field:tt)*) => {{
        let fields = vec![$({
            let (rust, place) = layout!(@field $rust $field);
            Field { name: layout!(@name $field), rust, place }
        }),*];
        Struct { name: stringify!($c), rust: stringify!($rust), size: size_of::<$rust>(), align: align_of::<$rust>(), fields }
    }};
}

/// In the order of the header.
fn structs() -> Vec<Struct> {
    vec![
        layout!(sofa_refusal Refused: reason place),
        layout!(sofa_value Value: reason place value),
        layout!(sofa_sizes Sizes: m c r n),
        layout!(sofa_box BoundingBox: min_x min_y min_z max_x max_y max_z),
        layout!(sofa_lookup Lookup: (bounds box) phi_min phi_max theta_min theta_max radius_min radius_max),
        layout!(sofa_loaded Loaded: reason place lookup),
        layout!(sofa_found Found: reason place number),
        layout!(sofa_inserted Inserted: reason place (bounds box)),
        layout!(sofa_filtered Filtered: reason place blended points ldelay rdelay),
        layout!(sofa_part Part: reason place start count),
        layout!(sofa_neighbors Six: reason place phi_plus phi_minus theta_plus theta_minus radius_plus radius_minus),
    ]
}

/// What a type of the bindings is called in C.
fn in_c(rust: &str) -> String {
    if let Some(to) = rust.strip_prefix("*mut ") {
        return format!("{} *", in_c(to));
    }
    if let Some(to) = rust.strip_prefix("*const ") {
        return format!("const {} *", in_c(to));
    }
    let plain = [("f32", "float"), ("u16", "uint16_t"), ("u32", "uint32_t"), ("usize", "size_t")];
    let named = structs().into_iter().map(|s| (s.rust, s.name));
    plain.into_iter().chain(named).find(|(name, _)| *name == rust).map(|(_, c)| c.to_string()).expect(rust)
}

struct Call {
    name: String,
    answer: String,
    /// Name and type of each.
    arguments: Vec<(String, String)>,
}

/// The declarations of the bindings, read off their text.
fn calls() -> Vec<Call> {
    let block = BINDINGS.split("extern \"C\" {").nth(1).unwrap().split("\n    }").next().unwrap();
    let read = |text: &str| {
        let (name, rest) = text.split_once('(').unwrap();
        let (arguments, rest) = rest.split_once(") -> ").unwrap();
        let argument = |a: &str| a.split_once(':').map(|(n, t)| (n.trim().to_string(), t.trim().to_string()));
        Call {
            name: name.to_string(),
            answer: rest.split(';').next().unwrap().to_string(),
            arguments: arguments.split(',').filter_map(argument).collect(),
        }
    };
    block.split("pub fn ").skip(1).map(read).collect()
}

/// The header without its comments.
fn header() -> String {
    let mut parts = HEADER.split("/*");
    let first = parts.next().unwrap().to_string();
    first + &parts.map(|p| p.split_once("*/").unwrap().1).collect::<String>()
}

/// What a C compiler is asked.
fn asked() -> String {
    let mut c = String::from("#include <stddef.h>\n#include <stdint.h>\n#include \"sofa.h\"\n");
    let mut holds = |what: String| c += &format!("_Static_assert({what}, \"differs\");\n");
    for Struct { name, size, align, fields, .. } in structs() {
        holds(format!("sizeof({name}) == {size} && _Alignof({name}) == {align}"));
        for Field { name: field, rust, place } in fields {
            holds(format!("offsetof({name}, {field}) == {place}"));
            holds(format!("_Generic((({name} *)0)->{field}, {}: 1, default: 0)", in_c(rust)));
        }
    }
    let [first, second, third] = sofa::version();
    holds(format!("SOFA_VERSION_MAJOR == {first} && SOFA_VERSION_MINOR == {second} && SOFA_VERSION_PATCH == {third}"));
    for (name, number) in [("", stack::CALL), ("_LEVEL", stack::LEVEL), ("_LOAD", stack::LOAD), ("_INSERT", stack::INSERT)] {
        holds(format!("SOFA_STACK{name} == {number}"));
    }
    holds(format!("SOFA_CARTESIAN == {} && SOFA_SPHERICAL == {} && SOFA_ABSENT == 65535", Kind::CARTESIAN.0, Kind::SPHERICAL.0));
    for Call { name, answer, arguments } in calls() {
        let types: Vec<String> = arguments.iter().map(|(_, t)| in_c(t)).collect();
        let types = if types.is_empty() { "void".to_string() } else { types.join(", ") };
        c += &format!("_Static_assert(sizeof(&{name}), \"is declared\");\n{} {name}({types});\n", in_c(&answer));
    }
    c
}

/// What the compiler says to it, nothing where it takes it. It is `$CC`, or `cc`, which also links for Rust.
fn compiled(c: &str) -> String {
    let compiler = std::env::var("CC").unwrap_or_else(|_| "cc".to_string());
    let include = concat!("-I", env!("CARGO_MANIFEST_DIR"), "/../../include");
    let mut run = Command::new(&compiler)
        .args(["-std=c11", "-Wall", "-Wextra", "-Werror", "-fsyntax-only", include, "-x", "c", "-"])
        .stdin(Stdio::piped())
        .stderr(Stdio::piped())
        .spawn()
        .expect("a C compiler, by CC");
    run.stdin.take().unwrap().write_all(c.as_bytes()).unwrap();
    let told = run.wait_with_output().unwrap();
    let said = String::from_utf8_lossy(&told.stderr).into_owned();
    assert_eq!(told.status.success(), said.is_empty(), "{said}");
    said
}

#[test]
fn a_c_compiler_agrees() {
    assert_eq!(compiled(&asked()), "");
}

/// It would say so if one figure, one type of a field, one type of an argument or of an answer were another, or a call not in the header.
#[test]
fn a_c_compiler_would_object() {
    let asked = asked();
    for (right, wrong) in [
        ("sizeof(sofa_loaded) == 64", "sizeof(sofa_loaded) == 60"),
        ("_Alignof(sofa_box) == 4", "_Alignof(sofa_box) == 8"),
        ("offsetof(sofa_filtered, ldelay) == 32", "offsetof(sofa_filtered, ldelay) == 36"),
        ("->number, uint16_t:", "->number, uint32_t:"),
        ("sofa_value sofa_sine(float)", "sofa_value sofa_sine(double)"),
        ("sofa_refusal sofa_to_spherical(float *", "sofa_refusal sofa_to_spherical(const float *"),
        ("sofa_part sofa_left_response", "sofa_value sofa_left_response"),
        ("sizeof(&sofa_root)", "sizeof(&sofa_roots)"),
        ("SOFA_STACK_LEVEL == 352", "SOFA_STACK_LEVEL == 160"),
    ] {
        assert_eq!(asked.matches(right).count(), 1, "{right}");
        assert_ne!(compiled(&asked.replace(right, wrong)), "", "{wrong}");
    }
}

/// The header's structs and fields, in its order, are those that the compiler is asked of; `sofa_environment` never crosses to the archive.
#[test]
fn no_struct_and_no_field_is_left_out() {
    let header = header();
    let written = header.split("typedef struct {").skip(1).map(|text| {
        let (fields, rest) = text.split_once('}').unwrap();
        let names = fields.split(';').flat_map(|line| line.split(',').filter_map(|part| part.split_whitespace().last()));
        (rest.split(';').next().unwrap().trim().to_string(), names.map(str::to_string).collect::<Vec<_>>())
    });
    let here = structs().into_iter().map(|s| (s.name.to_string(), s.fields.iter().map(|f| f.name.to_string()).collect::<Vec<_>>()));
    assert_eq!(written.filter(|(name, _)| name != "sofa_environment").collect::<Vec<_>>(), here.collect::<Vec<_>>());
}

/// Arguments of one type could stand in another order and no compiler would say so: their names are compared. `box` is no name in Rust.
#[test]
fn arguments_by_name() {
    let header = header();
    for Call { name, arguments, .. } in calls() {
        let here: Vec<&str> = arguments.iter().map(|(n, _)| if n == "bounds" { "box" } else { n }).collect();
        let listed = header.split_once(&format!(" {name}(")).unwrap().1.split(')').next().unwrap();
        let last = |part| str::rsplit(part, [' ', '*']).next().filter(|n| *n != "void");
        assert_eq!(listed.split(',').filter_map(last).collect::<Vec<_>>(), here, "{name}");
    }
    assert!(calls().len() >= 19);
}
