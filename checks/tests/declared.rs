//! The C interface is declared three times: by the exports in Rattle (crates/deskrook), for C
//! (embed/c/deskrook.h) and for Rust (embed/rust/src/c.rs). Here the three texts are compared, without
//! the compiled library: the same functions, the same parameters in the same order with the same
//! types, the same results, the same structs field for field, and the same limit on open scans.

use std::collections::BTreeMap;

/// Each type in Rattle, in C and in Rust. Rattle's names serve for the comparison.
const TYPES: [[&str; 3]; 8] = [
    ["u8", "uint8_t", "u8"],
    ["u16", "uint16_t", "u16"],
    ["u32", "uint32_t", "u32"],
    ["i32", "int32_t", "i32"],
    ["i64", "int64_t", "i64"],
    ["usize", "size_t", "usize"],
    ["ScanEntry", "deskrook_scan_entry", "ScanEntry"],
    ["Reply", "deskrook_reply", "Reply"],
];

/// The structs of one `u32` that tell a number's kind apart in Rattle. In C's calling convention on
/// x86-64 a struct of at most 16 bytes that lies as C lays it is passed as its parts are, so one of a
/// single number is passed as that number, in a register or on the stack, and C and Rust declare the
/// number.
const NUMBERS: [&str; 4] = ["Row", "Tail", "Transaction", "Stamp"];

/// Languages by their places in a line of `TYPES`.
const RATTLE: usize = 0;
const C: usize = 1;
const RUST: usize = 2;

/// A name with its type, pointers as `*const T` and `*mut T`.
type Named = (String, String);

#[derive(Debug, Default, PartialEq, Eq)]
struct Interface {
    /// Parameters and result of each function, as C passes them.
    functions: BTreeMap<String, (Vec<Named>, String)>,
    /// The fields of `ScanEntry` and `Reply`.
    structs: BTreeMap<String, Vec<Named>>,
    /// How many scans can be open, by which a caller sizes the list.
    most_scans: String,
}

/// The files that declare the interface.
struct Texts {
    exports: String,
    terms: String,
    limits: String,
    replies: String,
    header: String,
    declared: String,
    store: String,
}

fn texts() -> Texts {
    Texts {
        exports: include_str!("../../crates/deskrook/src/lib.rt").to_string(),
        terms: include_str!("../../crates/terms/src/lib.rt").to_string(),
        limits: include_str!("../../crates/terms/src/limits.rt").to_string(),
        replies: include_str!("../../crates/deskrook/src/reply.rt").to_string(),
        header: include_str!("../../embed/c/deskrook.h").to_string(),
        declared: include_str!("../../embed/rust/src/c.rs").to_string(),
        store: include_str!("../../embed/rust/src/store.rs").to_string(),
    }
}

/// The first difference between the exports and either declaration.
fn compare(texts: &Texts) -> Result<(), String> {
    let exports = exported(texts).map_err(|error| format!("the exports: {error}"))?;
    let header = header(&texts.header).map_err(|error| format!("deskrook.h: {error}"))?;
    let declared = declared(texts).map_err(|error| format!("c.rs: {error}"))?;
    for (file, other) in [("deskrook.h", header), ("c.rs", declared)] {
        alike(file, &exports.functions, &other.functions)?;
        alike(file, &exports.structs, &other.structs)?;
        let (one, two) = (&exports.most_scans, &other.most_scans);
        if one != two {
            return Err(format!("{one} scans can be open in the exports, {two} in {file}"));
        }
    }
    Ok(())
}

fn alike<T: std::fmt::Debug + PartialEq>(
    file: &str,
    exports: &BTreeMap<String, T>,
    other: &BTreeMap<String, T>,
) -> Result<(), String> {
    for name in exports.keys().chain(other.keys()) {
        let (one, two) = (exports.get(name), other.get(name));
        if one != two {
            return Err(format!("{name} is {one:?} in the exports, {two:?} in {file}"));
        }
    }
    Ok(())
}

// Texts.

/// Without the comments that begin with `//`, with one space between words.
fn plain(text: &str) -> String {
    let lines = text.lines().map(|line| line.split("//").next().unwrap_or(""));
    spaced(&lines.collect::<Vec<&str>>().join(" "))
}

fn spaced(text: &str) -> String {
    text.split_whitespace().collect::<Vec<&str>>().join(" ")
}

/// The text up to a mark, and behind it.
fn cut<'t>(text: &'t str, mark: &str) -> Result<(&'t str, &'t str), String> {
    let start: String = text.chars().take(60).collect();
    text.split_once(mark).ok_or_else(|| format!("no '{mark}' in '{start}'"))
}

/// What stands between two marks.
fn between(text: &str, from: &str, to: &str) -> Result<String, String> {
    let (_, rest) = cut(text, from)?;
    Ok(cut(rest, to)?.0.to_string())
}

/// Without each stretch from one mark through the next other one.
fn without(text: &str, from: &str, through: &str) -> Result<String, String> {
    let mut kept = String::new();
    let mut rest = text;
    while let Some((before, behind)) = rest.split_once(from) {
        kept += before;
        rest = cut(behind, through)?.1;
    }
    Ok(kept + rest)
}

/// A type under Rattle's name for it.
fn typed(language: usize, name: &str) -> Result<String, String> {
    let found = TYPES.iter().find(|line| line[language] == name.trim());
    let line = found.ok_or_else(|| format!("'{name}' is no type of the table"))?;
    Ok(line[RATTLE].to_string())
}

/// The parts of a list, each read by `one`. A comma at the end is passed over.
fn list<T>(text: &str, one: impl Fn(&str) -> Result<T, String>) -> Result<Vec<T>, String> {
    text.split(',').map(str::trim).filter(|part| !part.is_empty()).map(one).collect()
}

// Rattle.

fn exported(texts: &Texts) -> Result<Interface, String> {
    let mut interface = Interface::default();
    interface.most_scans = between(&texts.limits, "pub const MOST_SCANS: usize = ", ";")?;
    let text = plain(&texts.exports);
    for export in text.split("#[unsafe(no_mangle)] pub extern \"C\" fn ").skip(1) {
        let (name, rest) = cut(export, "(")?;
        let (parameters, rest) = cut(rest, ") -> ")?;
        let (result, _) = cut(rest, " ")?;
        let parameters = list(parameters, |one| slice_or_number(&texts.terms, one))?.concat();
        add(&mut interface, name, parameters, typed(RATTLE, result)?)?;
    }
    for (text, name) in [(&texts.terms, "ScanEntry"), (&texts.replies, "Reply")] {
        interface.structs.insert(name.to_string(), fields(text, name, RATTLE)?);
    }
    Ok(interface)
}

/// A struct of `NUMBERS` passes as the number that it holds, if it is laid as C lays it.
fn number<'t>(terms: &str, kind: &'t str) -> Result<&'t str, String> {
    if !NUMBERS.contains(&kind) {
        return Ok(kind);
    }
    let text = plain(terms);
    match cut(&text, &format!("pub struct {kind}(pub u32);")) {
        Ok((before, _)) if is_laid(before) => Ok("u32"),
        _ => Err(format!("{kind}, one u32, is not laid as C lays it")),
    }
}

/// Whether the attributes that a text ends with have a struct laid as C lays it.
fn is_laid(before: &str) -> bool {
    before.rsplit([';', '}']).next().unwrap_or("").contains("#[repr(C)]")
}

/// A slice passes as a pointer and a length.
fn slice_or_number(terms: &str, parameter: &str) -> Result<Vec<Named>, String> {
    let (name, kind) = cut(parameter, ": ")?;
    let (pointer, slice) = match kind.strip_prefix('&') {
        None => return Ok(vec![(name.to_string(), typed(RATTLE, number(terms, kind)?)?)]),
        Some(slice) => match slice.strip_prefix("mut ") {
            None => ("*const", slice),
            Some(slice) => ("*mut", slice),
        },
    };
    let of = slice.strip_prefix('[').and_then(|slice| slice.strip_suffix(']'));
    let of = typed(RATTLE, of.ok_or_else(|| format!("'{kind}' is no slice"))?)?;
    let length = (format!("{name}_length"), "usize".to_string());
    Ok(vec![(name.to_string(), format!("{pointer} {of}")), length])
}

fn add(
    interface: &mut Interface,
    name: &str,
    parameters: Vec<Named>,
    result: String,
) -> Result<(), String> {
    match interface.functions.insert(name.to_string(), (parameters, result)) {
        None => Ok(()),
        Some(_) => Err(format!("{name} comes twice")),
    }
}

/// The fields of a struct in Rattle or Rust, which must lie as C lays them.
fn fields(text: &str, name: &str, language: usize) -> Result<Vec<Named>, String> {
    let text = plain(text);
    let (before, rest) = cut(&text, &format!("pub struct {name} {{"))?;
    if !is_laid(before) {
        return Err(format!("{name} is not laid as C lays it"));
    }
    let (fields, _) = cut(rest, "}")?;
    list(fields, |field| {
        let (name, kind) = cut(field, ": ")?;
        Ok((name.trim_start_matches("pub ").to_string(), typed(language, kind)?))
    })
}

// C.

fn header(text: &str) -> Result<Interface, String> {
    let mut interface = Interface::default();
    interface.most_scans = between(text, "#define DESKROOK_SCANS ", "\n")?;
    // Without comments, the preprocessor's lines and functions with a body.
    let text = without(text, "/*", "*/")?;
    let lines: Vec<&str> = text.lines().filter(|line| !line.starts_with('#')).collect();
    let code = without(&spaced(&lines.join(" ")), "static inline", "}")?;
    let mut rest = code.as_str();
    while let Some((before, behind)) = rest.split_once('(') {
        let (parameters, behind) = cut(behind, ");")?;
        rest = behind;
        let before = before.rsplit([';', '}', '{']).next().unwrap_or("").trim();
        let (result, name) = cut(before, " ")?;
        add(&mut interface, name, list(parameters, c_named)?, typed(C, result)?)?;
    }
    for (kind, name) in [("ScanEntry", "deskrook_scan_entry"), ("Reply", "deskrook_reply")] {
        let (_, behind) = cut(&code, &format!("typedef struct {name} {{"))?;
        let (fields, _) = cut(behind, &format!("}} {name};"))?;
        let fields = list(&fields.replace(';', ","), c_named)?;
        interface.structs.insert(kind.to_string(), fields);
    }
    Ok(interface)
}

/// A parameter or field in C.
fn c_named(text: &str) -> Result<Named, String> {
    let at = text.rfind([' ', '*']).ok_or_else(|| format!("'{text}' has no name"))?;
    let (kind, name) = text.split_at(at + 1);
    let kind = kind.trim();
    let kind = match (kind.strip_suffix('*'), kind.strip_prefix("const ")) {
        (None, _) => typed(C, kind)?,
        (Some(_), Some(of)) => format!("*const {}", typed(C, of.trim_end_matches('*'))?),
        (Some(of), None) => format!("*mut {}", typed(C, of)?),
    };
    Ok((name.to_string(), kind))
}

// Rust.

fn declared(texts: &Texts) -> Result<Interface, String> {
    let mut interface = Interface::default();
    interface.most_scans = between(&texts.store, "pub const SCANS: usize = ", ";")?;
    let text = plain(&texts.declared);
    // The macro's body is one declaration with holes, which each line of its use fills.
    let (_, body) = cut(&text, "macro_rules! lent {")?;
    let (_, body) = cut(body, "extern \"C\" { $(")?;
    let (body, rest) = cut(body, ";)* }")?;
    let (plain, uses) = cut(rest, "lent! {")?;
    let (_, plain) = cut(plain, "extern \"C\" {")?;
    let uses = uses.strip_suffix('}').ok_or("something stands behind the declarations")?;
    let mut all: Vec<String> = plain.split_terminator(';').map(str::to_string).collect();
    for line in uses.split_terminator(';').map(str::trim).filter(|line| !line.is_empty()) {
        let (head, numbers) = cut(line, "(")?;
        let numbers = numbers.strip_suffix(')').ok_or_else(|| format!("'{line}' ends oddly"))?;
        let (memory, name) = cut(head, " ")?;
        let (scans, name) = cut(name, " ")?;
        let holes = [("$memory", memory), ("$list", scans), ("$name", name)];
        let filled = holes.iter().fold(body.to_string(), |text, hole| text.replace(hole.0, hole.1));
        all.push(filled.replace("$($number: $type),*", numbers));
    }
    for one in all.iter().map(|one| one.trim()).filter(|one| *one != "}") {
        let (_, one) = cut(one, "pub fn ")?;
        let (name, rest) = cut(one, "(")?;
        let (parameters, result) = cut(rest, ") -> ")?;
        add(&mut interface, name, list(parameters, rust_named)?, typed(RUST, result)?)?;
    }
    for (text, name, kind) in
        [(&texts.store, "ScanEntry", "ScanEntry"), (&texts.declared, "Reply", "Reply")]
    {
        interface.structs.insert(kind.to_string(), fields(text, name, RUST)?);
    }
    Ok(interface)
}

fn rust_named(text: &str) -> Result<Named, String> {
    let (name, kind) = cut(text, ": ")?;
    let kind = match kind.split_once(' ') {
        None => typed(RUST, kind)?,
        Some((pointer @ ("*const" | "*mut"), of)) => format!("{pointer} {}", typed(RUST, of)?),
        Some(_) => return Err(format!("'{kind}' is no type of the table")),
    };
    Ok((name.to_string(), kind))
}

#[test]
fn the_declarations_are_those_of_the_exports() {
    let exports = exported(&texts()).expect("the exports are read");
    assert_eq!(exports.functions.len(), 25);
    compare(&texts()).expect("no difference");
}

/// What is found with the text `old`, which stands there, replaced at its first place.
fn found(of: fn(&mut Texts) -> &mut String, old: &str, new: &str) -> String {
    let mut edited = texts();
    let text = of(&mut edited);
    assert!(text.contains(old), "no '{old}'");
    *text = text.replacen(old, new, 1);
    compare(&edited).err().unwrap_or_default()
}

/// A difference, and not a text that cannot be read.
fn told_apart(of: fn(&mut Texts) -> &mut String, old: &str, new: &str) {
    let found = found(of, old, new);
    assert!(found.contains(" in the exports, "), "'{new}' in the place of '{old}': '{found}'");
}

#[test]
fn another_type_of_a_parameter_is_told_apart() {
    told_apart(|t| &mut t.exports, "mask: u16", "mask: u32");
    told_apart(|t| &mut t.exports, "values: &[i32]", "values: &[u32]");
    told_apart(|t| &mut t.exports, "mem: &mut [u8]", "mem: &[u8]");
    told_apart(|t| &mut t.exports, "scans: &mut [ScanEntry]", "scans: &[ScanEntry]");
    told_apart(|t| &mut t.exports, "stamps: &mut [u32]", "stamps: &[u32]");
    told_apart(|t| &mut t.exports, "mark: i32", "mark: u32");
    told_apart(|t| &mut t.exports, "keeper: u16", "keeper: u32");
    told_apart(|t| &mut t.header, "uint16_t mask", "uint32_t mask");
    told_apart(|t| &mut t.header, "uint16_t keeper", "uint32_t keeper");
    told_apart(|t| &mut t.header, "size_t values_length", "uint32_t values_length");
    told_apart(|t| &mut t.header, "const deskrook_scan_entry *scans", "deskrook_scan_entry *scans");
    told_apart(|t| &mut t.header, "const int32_t *values", "const uint32_t *values");
    told_apart(|t| &mut t.header, "uint32_t *stamps", "const uint32_t *stamps");
    told_apart(|t| &mut t.header, "int32_t mark", "uint32_t mark");
    told_apart(|t| &mut t.header, "uint8_t *second", "const uint8_t *second");
    told_apart(|t| &mut t.header, "size_t second_length", "uint32_t second_length");
    told_apart(|t| &mut t.declared, "mask: u16", "mask: u32");
    told_apart(|t| &mut t.declared, "keeper: u16", "keeper: u32");
    told_apart(|t| &mut t.declared, "mem: *$memory u8", "mem: *const u8");
    told_apart(|t| &mut t.declared, "mem_length: usize", "mem_length: u32");
    told_apart(|t| &mut t.declared, "stamps: *mut u32", "stamps: *const u32");
    told_apart(|t| &mut t.declared, "mark: i32", "mark: u32");
    told_apart(|t| &mut t.declared, "second: *mut u8", "second: *const u8");
    told_apart(|t| &mut t.declared, "second_length: usize", "second_length: u32");
    told_apart(|t| &mut t.declared, "const mut deskrook_close", "const const deskrook_close");
}

#[test]
fn another_result_is_told_apart() {
    told_apart(|t| &mut t.exports, ") -> Reply", ") -> u32");
    told_apart(|t| &mut t.header, "deskrook_reply deskrook_release", "uint32_t deskrook_release");
    told_apart(|t| &mut t.declared, ") -> Reply", ") -> u32");
}

#[test]
fn a_missing_function_is_told_apart() {
    let exported = "#[unsafe(no_mangle)]\npub extern \"C\" fn deskrook_release";
    told_apart(|t| &mut t.exports, exported, "pub extern \"C\" fn deskrook_release");
    let prototype = "deskrook_reply deskrook_abort(uint8_t *mem, size_t mem_length, \
                     const deskrook_scan_entry *scans, size_t scans_length, uint32_t transaction);";
    told_apart(|t| &mut t.header, prototype, "");
    told_apart(|t| &mut t.declared, "mut const deskrook_release();", "");
}

#[test]
fn a_function_too_many_or_under_another_name_is_told_apart() {
    told_apart(|t| &mut t.exports, "fn deskrook_sum(", "fn deskrook_total(");
    told_apart(|t| &mut t.header, " deskrook_sum(", " deskrook_total(");
    told_apart(|t| &mut t.declared, " deskrook_sum(", " deskrook_total(");
    let more = "deskrook_reply deskrook_more(uint32_t n);\n#ifdef __cplusplus\n}";
    told_apart(|t| &mut t.header, "#ifdef __cplusplus\n}", more);
    told_apart(
        |t| &mut t.declared,
        "lent! {",
        "extern \"C\" { pub fn deskrook_more() -> Reply; } lent! {",
    );
    let more = "mut const deskrook_more();\n    mut const deskrook_begin();";
    told_apart(|t| &mut t.declared, "mut const deskrook_begin();", more);
}

#[test]
fn parameters_in_another_order_are_told_apart() {
    let swapped = "row: Row,\n    column: u32,\n";
    told_apart(|t| &mut t.exports, "column: u32,\n    row: Row,\n", swapped);
    told_apart(|t| &mut t.header, "uint32_t column, uint32_t row", "uint32_t row, uint32_t column");
    told_apart(|t| &mut t.declared, "column: u32, row: u32", "row: u32, column: u32");
    let swapped = "to: Stamp,\n    from: Stamp,\n";
    told_apart(|t| &mut t.exports, "from: Stamp,\n    to: Stamp,\n", swapped);
    told_apart(|t| &mut t.header, "uint32_t from, uint32_t to", "uint32_t to, uint32_t from");
    let swapped = "to: u32,\n        from: u32";
    told_apart(|t| &mut t.declared, "from: u32,\n        to: u32", swapped);
}

#[test]
fn another_struct_is_told_apart() {
    let swapped = "pub second: u32,\n    pub first: u32,\n";
    told_apart(|t| &mut t.replies, "pub first: u32,\n    pub second: u32,\n", swapped);
    told_apart(|t| &mut t.declared, "pub first: u32,\n    pub second: u32,\n", swapped);
    let swapped = "uint32_t second;\n    uint32_t first;\n";
    told_apart(|t| &mut t.header, "uint32_t first;\n    uint32_t second;\n", swapped);
    let swapped = "pub stamp: u32,\n    pub number: u32,\n";
    told_apart(|t| &mut t.terms, "pub number: u32,\n    pub stamp: u32,\n", swapped);
    told_apart(
        |t| &mut t.header,
        "uint32_t number;\n    uint32_t stamp;\n",
        "uint32_t stamp;\n    uint32_t number;\n",
    );
    let number = "    /// The scan's number; 0 marks a free entry.\n    pub number: u32,\n";
    let stamp = "    /// The stamp that it was opened with.\n    pub stamp: u32,\n";
    told_apart(|t| &mut t.store, &(number.to_owned() + stamp), &(stamp.to_owned() + number));
    told_apart(|t| &mut t.terms, "    pub commits: u32,\n", "");
    told_apart(|t| &mut t.store, "    pub commits: u32,\n", "");
    told_apart(|t| &mut t.header, "    uint32_t commits;", "   ");
    told_apart(|t| &mut t.header, "uint32_t commits;", "uint16_t commits;");
    told_apart(|t| &mut t.replies, "pub sum: i64", "pub sum: i32");
    told_apart(|t| &mut t.header, "int64_t sum", "int32_t sum");
    told_apart(|t| &mut t.declared, "pub sum: i64", "pub sum: i32");
}

#[test]
fn another_limit_is_told_apart() {
    told_apart(|t| &mut t.limits, "MOST_SCANS: usize = 5;", "MOST_SCANS: usize = 16;");
    told_apart(|t| &mut t.header, "DESKROOK_SCANS 5\n", "DESKROOK_SCANS 16\n");
    told_apart(|t| &mut t.store, "SCANS: usize = 5;", "SCANS: usize = 16;");
}

#[test]
fn a_struct_that_may_lie_otherwise_is_told_apart() {
    let laid = "#[repr(C)]\n#[derive(Clone, Copy)]\npub struct ";
    let free = "#[derive(Clone, Copy)]\npub struct ";
    let one =
        |name: &str| found(|t| &mut t.terms, &format!("{laid}{name}"), &format!("{free}{name}"));
    let entry = one("ScanEntry");
    let reply = found(|t| &mut t.declared, "#[repr(C)]\n", "");
    let row = one("Row");
    let tail = found(|t| &mut t.terms, "pub struct Tail(pub u32)", "pub struct Tail(pub u16)");
    let all = [entry, reply, row, tail];
    assert!(all.iter().all(|found| found.contains("is not laid as C lays it")));
}
