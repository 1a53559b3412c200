//! The declarations of these bindings are those of the header, and the errors are its statuses.

use std::collections::BTreeMap;
use std::path::Path;

use gefsunk::Error;

/// The header: in a clone, or as it is installed.
fn header() -> Option<String> {
    let here = Path::new(env!("CARGO_MANIFEST_DIR"));
    ["../c/include/gefsunk.h", "../../../include/gefsunk.h"]
        .iter()
        .find_map(|place| std::fs::read_to_string(here.join(place)).ok())
}

/// A text without its comments.
fn code(text: &str) -> String {
    let mut code = String::new();
    let mut rest = text;
    while let Some((before, after)) = rest.split_once("/*") {
        code += before;
        rest = after.split_once("*/").expect("a comment ends").1;
    }
    code + rest
}

/// A type of C as these bindings write it.
fn rust_type(c: &str) -> String {
    let c = c.replace("const ", "");
    let (name, is_pointer) = match c.split_once('*') {
        Some((name, _)) => (name.trim(), true),
        None => (c.trim(), false),
    };
    let name = match name {
        "uint8_t" => "u8",
        "uint16_t" => "u16",
        "uint32_t" => "u32",
        "uint64_t" => "u64",
        "size_t" => "usize",
        "char" => "c_char",
        "void" => "c_void",
        "gef_status" => "c_int",
        "gef_pm" | "gef_disk" | "gef_machine" => "Handle",
        "gef_disk_profile" => "DiskProfile<'_>",
        "gef_wanted" => "Wanted",
        "gef_request" => "Request",
        "gef_event" => "Event",
        "gef_range" => "Range",
        other => panic!("a type that is not known: {other}"),
    };
    format!("{}{name}", if is_pointer { "*" } else { "" })
}

/// A pointer or a reference of Rust, whichever it is.
fn plain(rust: &str) -> String {
    if rust == "Text<'text>" {
        return "*c_char".to_owned();
    }
    ["&mut ", "*const ", "*mut ", "&"]
        .iter()
        .find_map(|sort| rust.trim().strip_prefix(sort))
        .map_or(rust.trim().to_owned(), |name| format!("*{name}"))
}

/// The calls of the header: the types of their parameters and of what they return.
fn calls_of_c(header: &str) -> BTreeMap<String, Vec<String>> {
    let mut calls = BTreeMap::new();
    let code = code(header);
    let lines = code.lines().filter(|line| !line.starts_with('#'));
    let code: String = lines.collect::<Vec<_>>().join(" ");
    for declared in code.split([';', '}', '{']) {
        let Some((head, parameters)) = declared.split_once('(') else {
            continue;
        };
        let at = head.find("gef_").map(|_| head.rfind("gef_").unwrap_or(0));
        let Some(at) = at else { continue };
        let parameters = parameters.trim_end().trim_end_matches(')');
        let mut types: Vec<String> = parameters
            .split(',')
            .filter(|it| it.trim() != "void")
            .map(|it| {
                let end = it.rfind(['*', ' ']).expect("a parameter has a type");
                rust_type(it[..=end].trim())
            })
            .collect();
        types.push(rust_type(head[..at].trim()));
        calls.insert(head[at..].to_owned(), types);
    }
    calls
}

/// The same of these bindings.
fn calls_of_rust(source: &str) -> BTreeMap<String, Vec<String>> {
    let block = source
        .split_once("unsafe extern \"C\" {")
        .expect("there is a block")
        .1;
    let block = block.split_once("\n}").expect("it ends").0;
    let mut calls = BTreeMap::new();
    for declared in block.split(';') {
        let Some((_, call)) = declared.split_once("fn ") else {
            continue;
        };
        let (name, rest) = call.split_once('(').expect("a call has parameters");
        let (parameters, result) = rest.split_once(") -> ").expect("it returns something");
        let mut types: Vec<String> = parameters
            .split(", ")
            .map(|it| it.trim().trim_end_matches(','))
            .filter(|it| !it.is_empty())
            .map(|it| plain(it.split_once(": ").expect("a parameter has a type").1))
            .collect();
        types.push(plain(result));
        calls.insert(name.to_owned(), types);
    }
    calls
}

/// The fields of a struct of C, in order, each as `name: type`.
fn fields_of_c(block: &str) -> Vec<String> {
    let mut fields = Vec::new();
    for declared in block.split(';').filter(|it| !it.trim().is_empty()) {
        let end = declared.rfind(['*', ' ']).expect("a field has a type");
        let (sort, names) = match declared.split_once(',') {
            Some((first, _)) => first.rsplit_once(' ').expect("a field has a type"),
            None => declared.split_at(end + 1),
        };
        let names = match declared.split_once(',') {
            Some((_, others)) => format!("{names},{others}"),
            None => names.to_owned(),
        };
        let sort = rust_type(sort.trim());
        fields.extend(names.split(',').map(|it| format!("{}: {sort}", it.trim())));
    }
    fields
}

/// What stands in the braces of a struct of the header.
fn struct_of_c(header: &str, name: &str) -> String {
    let code = code(header);
    let (_, block) = code
        .split_once(&format!("typedef struct {name} {{"))
        .expect("the header has the struct");
    let (block, _) = block.split_once(&format!("}} {name};")).expect("it ends");
    block.to_owned()
}

/// The fields of a struct or union of these bindings.
fn fields_of_rust(name: &str) -> Vec<String> {
    let source = include_str!("../src/ffi.rs");
    let (_, block) = ["struct", "union"]
        .iter()
        .flat_map(|sort| {
            [
                format!("{sort} {name} {{"),
                format!("{sort} {name}<'text> {{"),
            ]
        })
        .find_map(|head| source.split_once(&head))
        .expect("the bindings have it");
    let (block, _) = block.split_once("\n}").expect("it ends");
    let lines = block.lines().map(str::trim).filter(|it| !it.is_empty());
    lines
        .map(|line| {
            let line = line.trim_start_matches("pub(crate) ").trim_end_matches(',');
            let (name, sort) = line.split_once(": ").expect("a field has a type");
            format!("{name}: {}", plain(sort))
        })
        .collect()
}

#[test]
fn structs_have_the_fields_of_the_header() {
    let Some(header) = header() else { return };
    for (c, rust) in [
        ("gef_pm", "Handle"),
        ("gef_disk", "Handle"),
        ("gef_machine", "Handle"),
        ("gef_disk_profile", "DiskProfile"),
        ("gef_wanted", "Wanted"),
        ("gef_request", "Request"),
        ("gef_range", "Range"),
    ] {
        let wanted = fields_of_c(&struct_of_c(&header, c));
        assert_eq!(fields_of_rust(rust), wanted, "{c}");
    }
    let event = struct_of_c(&header, "gef_event");
    let (fixed, parts) = event.split_once("union {").expect("it has a union");
    let mut wanted = fields_of_c(fixed);
    wanted.push("part: Part".to_owned());
    assert_eq!(fields_of_rust("Event"), wanted);
    let (parts, _) = parts.split_once("} u;").expect("the union ends");
    let (structs, last) = parts.rsplit_once("}").expect("it has structs");
    let mut names = Vec::new();
    for part in format!("{structs}}}").split("struct {").skip(1) {
        let (fields, rest) = part.rsplit_once('}').unwrap_or((part, ""));
        let name = if rest.trim().is_empty() {
            last.split(';').next().unwrap_or("").trim()
        } else {
            rest.trim().trim_end_matches(';')
        };
        let rust = name[..1].to_uppercase() + &name[1..];
        assert_eq!(fields_of_rust(&rust), fields_of_c(fields), "{name}");
        names.push(format!("{name}: {rust}"));
    }
    names.extend(fields_of_c(last.split_once(';').expect("a field ends").1));
    assert_eq!(fields_of_rust("Part"), names);
}

#[test]
fn calls_are_those_of_the_header() {
    let Some(header) = header() else { return };
    let wanted = calls_of_c(&header);
    assert!(wanted.len() > 40, "{wanted:?}");
    assert_eq!(calls_of_rust(include_str!("../src/ffi.rs")), wanted);
}

#[test]
fn errors_are_the_statuses_of_the_header() {
    let Some(header) = header() else { return };
    let mut statuses = BTreeMap::new();
    for line in header.lines() {
        let words: Vec<&str> = line.split_whitespace().collect();
        if let [name, "=", number, ..] = words[..] {
            if let (true, Ok(number)) = (
                name.starts_with("GEF_"),
                number.trim_end_matches(',').parse::<i32>(),
            ) {
                statuses.insert(number, name.to_owned());
            }
        }
    }
    assert!(statuses.len() > 25, "{statuses:?}");
    for number in -1..100 {
        let error = Error::of_status(number);
        let Some(name) = statuses.get(&number) else {
            assert_eq!(error, Some(Error::Unknown(number)));
            continue;
        };
        let Some(error) = error else {
            assert_eq!((number, name.as_str()), (0, "GEF_OK"));
            continue;
        };
        assert_eq!(error.status(), number);
        let spelled = name.replace("GEF_", "").replace('_', "").to_lowercase();
        assert_eq!(format!("{error:?}").to_lowercase(), spelled);
        assert!(!error.to_string().is_empty());
    }
}
