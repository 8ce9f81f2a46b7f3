//! The declarations of the exported calls, in C and in Rust, are those of the library's source.

use super::text;

/// The exported calls, and the crate that they call, which has the structs and says the same of each call.
const SOURCE: &str = "crates/bozhtagul_c/src/lib.rt";
const LIBRARY: &str = "crates/bozhtagul/src/lib.rt";
const HEADER: &str = "include/bozhtagul.h";
const PLAIN: &str = "rust/viewer/src/plain.rs";

/// A name with what it is.
type Field = (String, String);

/// An exported call, or a struct that one gives.
struct Call {
    name: String,
    parameters: Vec<Field>,
    result: String,
}

struct Struct {
    name: String,
    fields: Vec<Field>,
}

/// The fields of a list `name: type, ..`.
fn fields(list: &str) -> Vec<Field> {
    let pairs = list.split(',').filter_map(|field| field.trim().trim_start_matches("pub ").split_once(": "));
    pairs.map(|(name, kind)| (name.to_string(), kind.to_string())).collect()
}

/// The pieces of a text between one mark and the first of another behind it.
fn between<'a>(text: &'a str, start: &'a str, end: &'a str) -> impl Iterator<Item = (&'a str, &'a str)> {
    text.split(start).skip(1).map(move |rest| rest.split_once(end).expect("an end"))
}

fn calls(source: &str) -> Vec<Call> {
    let call = |(head, rest): (&str, &str)| {
        let (name, parameters) = head.split_once('(').expect("parameters");
        let result = rest.split_whitespace().next().expect("a result").to_string();
        Call { name: name.to_string(), parameters: fields(parameters), result }
    };
    between(source, "pub extern \"C\" fn ", ") -> ").map(call).collect()
}

fn structs(source: &str) -> Vec<Struct> {
    let given = |(head, _): (&str, &str)| {
        let (name, list) = head.split_once(" {").expect("fields");
        Struct { name: name.to_string(), fields: fields(list) }
    };
    between(source, "#[repr(C)]\n#[derive(Clone, Copy)]\npub struct ", "}").map(given).collect()
}

/// A text without comments, white space made one space, and none inside brackets.
fn compact(text: &str) -> String {
    let code: String = text.split("/*").map(|piece| piece.split_once("*/").map_or(piece, |(_, rest)| rest)).collect();
    let code: Vec<&str> = code.lines().map(|line| line.split("//").next().unwrap_or(line)).collect();
    let words: Vec<&str> = code.iter().flat_map(|line| line.split_whitespace()).collect();
    words.join(" ").replace("( ", "(").replace(", )", ")")
}

fn c_struct(name: &str) -> String {
    format!("struct bozhtagul_{}", name.to_lowercase())
}

fn in_c(call: &Call) -> String {
    let parameter = |(name, kind): &Field| match kind.as_str() {
        "&[u8]" => format!("const uint8_t *{name}, size_t {name}_len"),
        "&mut [u8]" => format!("uint8_t *{name}, size_t {name}_len"),
        number => format!("uint{}_t {name}", &number[1..]),
    };
    let parameters: Vec<String> = call.parameters.iter().map(parameter).collect();
    format!("{} {}({});", c_struct(&call.result), call.name, parameters.join(", "))
}

fn in_rust(call: &Call) -> String {
    let parameter = |(name, kind): &Field| match kind.as_str() {
        "&[u8]" => format!("{name}: *const u8, {name}_len: usize"),
        "&mut [u8]" => format!("{name}: *mut u8, {name}_len: usize"),
        number => format!("{name}: {number}"),
    };
    let parameters: Vec<String> = call.parameters.iter().map(parameter).collect();
    format!("fn {}({}) -> {};", call.name, parameters.join(", "), call.result)
}

/// The exported calls that a text does not declare in this form.
fn undeclared(source: &str, text: &str, form: fn(&Call) -> String) -> Vec<String> {
    let text = compact(text);
    calls(source).iter().map(form).filter(|declaration| !text.contains(declaration.as_str())).collect()
}

/// The structs that the header does not declare, or whose size it does not hold.
fn unsized_structs(source: &str, header: &str) -> Vec<String> {
    let header = compact(header);
    let wanted = structs(source).into_iter().flat_map(|given| {
        let fields: Vec<String> = given.fields.iter().map(|(name, kind)| format!("uint{}_t {name};", &kind[1..])).collect();
        let name = c_struct(&given.name);
        let size = 8 * fields.len();
        [format!("{name} {{ {} }};", fields.join(" ")), format!("_Static_assert(sizeof({name}) == {size},")]
    });
    wanted.filter(|text| !header.contains(text.as_str())).collect()
}

#[test]
fn the_header_declares_the_exported_calls() {
    let (source, library, header) = (text(SOURCE), text(LIBRARY), text(HEADER));
    assert_eq!((calls(&source).len(), structs(&library).len()), (10, 4));
    assert_eq!(undeclared(&source, &header, in_c), [""; 0]);
    assert_eq!(unsized_structs(&library, &header), [""; 0]);
}

/// The heads of the exported calls, from their names to their last clauses.
fn heads(source: &str) -> Vec<&str> {
    between(source, "pub extern \"C\" fn ", "\n{\n").map(|(head, _)| head).collect()
}

#[test]
fn the_exported_calls_say_what_the_library_says() {
    let (source, library) = (text(SOURCE), text(LIBRARY));
    assert_eq!((heads(&source).len(), structs(&source).len()), (10, 0));
    assert_eq!(heads(&source), heads(&library));
}

/// The value of a name that the header defines.
fn defined(header: &str, name: &str) -> Option<usize> {
    let value = |line: &str| line.strip_prefix(&format!("#define BOZHTAGUL_{name} "))?.parse().ok();
    header.lines().find_map(value)
}

#[test]
fn the_header_has_the_viewers_numbers() {
    let header = text(HEADER);
    for (name, value) in [
        ("VERSION_ONLY", viewer::Direction::VersionOnly.number().into()),
        ("BACKWARD", viewer::Direction::Backward.number().into()),
        ("FORWARD", viewer::Direction::Forward.number().into()),
        ("VERSION_ONLY_AFTER", viewer::Direction::VersionOnlyAfter.number().into()),
        ("BACKWARD_AFTER", viewer::Direction::BackwardAfter.number().into()),
        ("FORWARD_AFTER", viewer::Direction::ForwardAfter.number().into()),
        ("BETWEEN", viewer::Span::DIRECTION.into()),
        ("NO_ENTITY", reference::NO_ENTITY as usize),
        ("NOT_YET", reference::NOT_YET as usize),
        ("FOUND", reference::FOUND as usize),
        ("NONE_SO_LATE", reference::NONE_SO_LATE as usize),
        ("LISTED", reference::LISTED as usize),
        ("VERSION", reference::LIST_ENTRY),
        ("DIGEST", viewer::DIGEST),
        ("WORK", viewer::work_length(1)),
        ("MOST_RECORDS", viewer::MOST_RECORDS),
        ("MOST_LISTING", viewer::MOST_LISTING),
        ("UNIT", viewer::recorder_length(0)),
    ] {
        assert_eq!(defined(&header, name), Some(value), "{name}");
    }
    let memory = "#define BOZHTAGUL_RECORDER_MEMORY(records) (BOZHTAGUL_UNIT + BOZHTAGUL_UNIT * (size_t)(records))\n";
    assert!(header.contains(memory) && viewer::recorder_length(7) == 512 + 512 * 7);
    assert!(header.contains("#define BOZHTAGUL_MOST_ANSWER(records) (3211 + 22 * (size_t)(records))\n"));
    for records in (1..500).chain([32_768, 65_534, 65_535]) {
        assert!(viewer::most_answer(viewer::Direction::Forward, records) <= 3211 + 22 * records, "{records}");
    }
    assert!(header.contains("#define BOZHTAGUL_MOST_SPAN_ANSWER(records) (122 + 174 * (size_t)(records))\n"));
    assert!(header.contains("#define BOZHTAGUL_MOST_LIST(answer_len) (BOZHTAGUL_VERSION * ((size_t)(answer_len) / 77))\n"));
    for records in (1..500).chain([32_768, 65_534, 65_535]) {
        assert!(viewer::most_span_answer(records) <= 122 + 174 * records, "{records}");
    }
}

#[test]
fn the_viewer_declares_the_exported_calls() {
    assert_eq!(undeclared(&text(SOURCE), &text(PLAIN), in_rust), [""; 0]);
}

#[test]
fn a_wrong_declaration_is_found() {
    let (source, library) = (text(SOURCE), text(LIBRARY));
    for (right, wrong) in [
        ("uint32_t entity", "uint64_t entity"),
        ("*work, size_t work_len", "*work"),
        ("written bozhtagul_log(", "outcome bozhtagul_log("),
    ] {
        let header = text(HEADER).replace(right, wrong);
        assert!(!undeclared(&source, &header, in_c).is_empty(), "{wrong}");
    }
    for (right, wrong) in [("== 24", "== 16"), ("uint64_t verdict;", ""), ("uint64_t start;", "uint32_t start;")] {
        let header = text(HEADER).replace(right, wrong);
        assert_eq!(unsized_structs(&library, &header).len(), 1, "{wrong}");
    }
    let plain = text(PLAIN).replace("entity: u32", "entity: u64");
    assert_eq!(undeclared(&source, &plain, in_rust).len(), 3);
}
