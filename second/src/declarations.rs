//! Holds four texts to each other: the header `include/jiskromet.h`, this
//! package's `src/library.rs`, the Rust wrapper's `rust/src/sys.rs` and the
//! library's exports in `crates/jiskromet_c/src` with their structs in
//! `crates/c_answers/src`. A linker compares names only; a parameter or field
//! that differs would go unseen.

use std::collections::{BTreeMap, BTreeSet};
use std::fs;
use std::io;
use std::path::Path;

use crate::report::Group;

/// The declarations of this package, as they were compiled.
const LIBRARY: &str = include_str!("library.rs");

pub fn check(group: &mut Group, root: &Path) {
    let header = root.join("include/jiskromet.h");
    let wrapper = root.join("rust/src/sys.rs");
    let header = fs::read_to_string(&header).map_err(|why| format!("{}: {why}", header.display()));
    let wrapper =
        fs::read_to_string(&wrapper).map_err(|why| format!("{}: {why}", wrapper.display()));
    let sources: Result<String, String> = ["crates/c_answers/src", "crates/jiskromet_c/src"]
        .iter()
        .map(|folder| read_sources(&root.join(folder)).map_err(|why| format!("{folder}: {why}")))
        .collect();
    match (header, wrapper, sources) {
        (Ok(header), Ok(wrapper), Ok(sources)) => {
            compare(group, &header, LIBRARY, &wrapper, &sources);
        }
        (header, wrapper, sources) => {
            let missing = [header.err(), wrapper.err(), sources.err()];
            for why in missing.into_iter().flatten() {
                group.check(false, || why);
            }
        }
    }
}

/// The text of every `.rt` file in a folder and those below it, in order.
fn read_sources(folder: &Path) -> io::Result<String> {
    let mut text = String::new();
    let mut entries: Vec<_> = fs::read_dir(folder)?.collect::<Result<_, _>>()?;
    entries.sort_by_key(|entry| entry.file_name());
    for entry in entries {
        let path = entry.path();
        if path.is_dir() {
            text += &read_sources(&path)?;
        } else if path.extension().is_some_and(|extension| extension == "rt") {
            text += &fs::read_to_string(&path)?;
            text.push('\n');
        }
    }
    Ok(text)
}

fn compare(group: &mut Group, header: &str, library: &str, wrapper: &str, sources: &str) {
    let texts = [
        ("the header", parse_c(header)),
        ("library.rs", parse_rust(library)),
        ("the wrapper's sys.rs", parse_rust(wrapper)),
        ("the library's source", parse_rattle(sources)),
    ];
    for (name, declared) in &texts {
        for problem in &declared.problems {
            group.check(false, || format!("{name}: {problem}"));
        }
        group.check(!declared.functions.is_empty(), || {
            format!("{name} declares no function")
        });
        for (function, Function { parameters, result }) in &declared.functions {
            let types = parameters.iter().map(|(_, kind)| kind);
            for named in types.chain([result]) {
                let known = NUMBERS.contains(&pointee(named))
                    || declared.structs.contains_key(pointee(named));
                group.check(known, || {
                    format!("{name}: {function} speaks of {named}, which is not declared there")
                });
            }
        }
    }
    same(group, "function", &texts, |declared| &declared.functions);
    same(group, "struct", &texts, |declared| &declared.structs);
}

/// Each name must stand in every text, with the same declaration.
fn same<T: PartialEq + std::fmt::Debug>(
    group: &mut Group,
    kind: &str,
    texts: &[(&str, Declarations)],
    part: fn(&Declarations) -> &BTreeMap<String, T>,
) {
    let names: BTreeSet<&String> = texts
        .iter()
        .flat_map(|(_, text)| part(text).keys())
        .collect();
    for name in names {
        let (first, declared) = &texts[0];
        let expected = part(declared).get(name);
        group.check(expected.is_some(), || {
            format!("{kind} {name} is missing in {first}")
        });
        for (other, declared) in &texts[1..] {
            let came = part(declared).get(name);
            group.check(came.is_some(), || {
                format!("{kind} {name} is missing in {other}")
            });
            if let (Some(expected), Some(came)) = (expected, came) {
                group.check(expected == came, || {
                    format!("{kind} {name} differs: {first} has {expected:?}, {other} {came:?}")
                });
            }
        }
    }
}

/// Parameters or fields in order: name and type. Two parameters of one type
/// are told apart by their names alone.
type Fields = Vec<(String, String)>;

/// A function's types, spelled as in Rust; a struct is named by its key.
#[derive(Debug, PartialEq)]
struct Function {
    parameters: Fields,
    result: String,
}

/// What a text declares. Structs are known by `struct_key`.
#[derive(Default)]
struct Declarations {
    functions: BTreeMap<String, Function>,
    structs: BTreeMap<String, Fields>,
    problems: Vec<String>,
}

impl Declarations {
    fn add_function(&mut self, name: String, function: Function) {
        if self.functions.contains_key(&name) {
            self.problems
                .push(format!("function {name} is declared twice"));
        }
        self.functions.insert(name, function);
    }

    fn add_struct(&mut self, name: &str, fields: Fields) {
        let key = struct_key(name);
        if self.structs.contains_key(&key) {
            self.problems
                .push(format!("struct {name} is declared twice"));
        }
        self.structs.insert(key, fields);
    }
}

/// The numbers that cross the border, by their Rust names.
const NUMBERS: [&str; 5] = ["u8", "u16", "u32", "u64", "usize"];

/// What a type points to, or the type itself.
fn pointee(spelled: &str) -> &str {
    spelled
        .trim_start_matches("*const ")
        .trim_start_matches("*mut ")
}

/// `JkItem` and `jk_item` are one struct.
fn struct_key(name: &str) -> String {
    name.replace('_', "").to_lowercase()
}

/// Splits a text into words and signs. Comments fall away; a string or
/// character literal is one token with its quotes.
fn tokens(text: &str) -> Vec<String> {
    let characters: Vec<char> = text.chars().collect();
    let at = |index: usize| characters.get(index).copied().unwrap_or('\0');
    let mut tokens = Vec::new();
    let mut index = 0;
    while index < characters.len() {
        let start = index;
        let first = at(index);
        if first.is_whitespace() {
            index += 1;
            continue;
        } else if first == '/' && at(index + 1) == '/' {
            while index < characters.len() && at(index) != '\n' {
                index += 1;
            }
            continue;
        } else if first == '/' && at(index + 1) == '*' {
            index += 2;
            while index < characters.len() && !(at(index) == '*' && at(index + 1) == '/') {
                index += 1;
            }
            index += 2;
            continue;
        } else if first.is_alphanumeric() || first == '_' {
            while at(index).is_alphanumeric() || at(index) == '_' {
                index += 1;
            }
        } else if first == '"' {
            index += 1;
            while index < characters.len() && at(index) != '"' {
                index += if at(index) == '\\' { 2 } else { 1 };
            }
            index += 1;
        } else if first == '\'' && (at(index + 1) == '\\' || at(index + 2) == '\'') {
            index += if at(index + 1) == '\\' { 3 } else { 2 };
            while index < characters.len() && at(index) != '\'' {
                index += 1;
            }
            index += 1;
        } else if first == '-' && at(index + 1) == '>' {
            index += 2;
        } else {
            index += 1;
        }
        tokens.push(
            characters[start..index.min(characters.len())]
                .iter()
                .collect(),
        );
    }
    tokens
}

/// A place in a list of tokens.
struct Cursor<'a> {
    tokens: &'a [String],
    at: usize,
}

impl<'a> Cursor<'a> {
    fn new(tokens: &'a [String]) -> Self {
        Cursor { tokens, at: 0 }
    }

    fn peek(&self) -> &'a str {
        self.tokens.get(self.at).map_or("", String::as_str)
    }

    fn next(&mut self) -> &'a str {
        let token = self.peek();
        self.at += 1;
        token
    }

    fn ended(&self) -> bool {
        self.at >= self.tokens.len()
    }

    /// Steps over the tokens if they come next.
    fn take(&mut self, expected: &[&str]) -> bool {
        let rest = &self.tokens[self.at.min(self.tokens.len())..];
        let come = rest.len() >= expected.len() && rest.iter().zip(expected).all(|(a, b)| a == b);
        if come {
            self.at += expected.len();
        }
        come
    }

    /// The tokens within the bracket that comes next, without its ends.
    fn bracketed(&mut self) -> &'a [String] {
        let start = self.at + 1;
        let mut depth = 0;
        while !self.ended() {
            match self.next() {
                "(" | "[" | "{" => depth += 1,
                ")" | "]" | "}" => depth -= 1,
                _ => {}
            }
            if depth == 0 {
                return &self.tokens[start.min(self.at - 1)..self.at - 1];
            }
        }
        &self.tokens[self.tokens.len()..]
    }
}

/// Splits at a sign that stands outside all brackets; an empty last part, as
/// after a trailing comma, falls away.
fn split<'a>(tokens: &'a [String], sign: &str) -> Vec<&'a [String]> {
    let mut parts = Vec::new();
    let mut start = 0;
    let mut depth = 0;
    for (index, token) in tokens.iter().enumerate() {
        match token.as_str() {
            "(" | "[" | "{" => depth += 1,
            ")" | "]" | "}" => depth -= 1,
            _ => {}
        }
        if depth == 0 && token == sign {
            parts.push(&tokens[start..index]);
            start = index + 1;
        }
    }
    if start < tokens.len() {
        parts.push(&tokens[start..]);
    }
    parts
}

/// Directives are lines of their own in C; the rest is made of tokens.
fn without_directives(text: &str) -> String {
    let mut kept = String::new();
    let mut continued = false;
    for line in text.lines() {
        let directive = continued || line.trim_start().starts_with('#');
        continued = directive && line.trim_end().ends_with('\\');
        if !directive {
            kept += line;
        }
        kept.push('\n');
    }
    kept
}

fn parse_c(text: &str) -> Declarations {
    let tokens = tokens(&without_directives(text));
    let mut cursor = Cursor::new(&tokens);
    let mut declared = Declarations::default();
    while !cursor.ended() {
        // The braces of `extern "C"` hold declarations like those outside.
        if cursor.take(&["extern", "\"C\"", "{"]) || cursor.take(&["}"]) || cursor.take(&[";"]) {
            continue;
        }
        let start = cursor.at;
        let mut body = None;
        let mut parameters = None;
        while !cursor.ended() && cursor.peek() != ";" {
            match cursor.peek() {
                "{" => {
                    body = Some(cursor.bracketed());
                    // A function with a body ends without a semicolon.
                    if parameters.is_some() {
                        break;
                    }
                }
                "(" if parameters.is_none() => {
                    parameters = Some((cursor.at, cursor.bracketed()));
                }
                "(" | "[" => {
                    cursor.bracketed();
                }
                _ => {
                    cursor.next();
                }
            }
        }
        let declaration = &tokens[start..cursor.at.min(tokens.len())];
        let word = |index: usize| declaration.get(index).map_or("", String::as_str);
        match (body, parameters) {
            (Some(fields), None) if word(0) == "struct" => {
                let fields = c_fields(fields, &mut declared.problems);
                declared.add_struct(word(1), fields);
            }
            (Some(fields), None) if word(0) == "typedef" && word(1) == "struct" => {
                let fields = c_fields(fields, &mut declared.problems);
                declared.add_struct(word(declaration.len() - 1), fields);
            }
            // A helper with a body is no export.
            (Some(_), _) => {}
            (None, Some((bracket, parameters))) if word(0) != "typedef" => {
                let name = bracket - 1;
                let result = c_type(&tokens[start..name]);
                let parameters: Option<Fields> = match parameters {
                    [void] if void == "void" => Some(Vec::new()),
                    _ => split(parameters, ",")
                        .into_iter()
                        .map(|one| {
                            let (kind, name) = c_type(one)?;
                            Some((name?, kind))
                        })
                        .collect(),
                };
                match (parameters, result) {
                    (Some(parameters), Some((result, _))) => {
                        let function = Function { parameters, result };
                        declared.add_function(tokens[name].clone(), function);
                    }
                    _ => declared
                        .problems
                        .push(format!("not understood: {}", declaration.join(" "))),
                }
            }
            (None, _) => {}
        }
    }
    declared
}

fn c_fields(body: &[String], problems: &mut Vec<String>) -> Fields {
    let mut fields = Vec::new();
    for field in split(body, ";") {
        // `uint32_t kind, fault;` declares two fields of one type.
        let mut declarators = split(field, ",").into_iter();
        match declarators.next().and_then(c_type) {
            Some((kind, Some(name))) => {
                fields.push((name, kind.clone()));
                for further in declarators {
                    fields.push((further.join(" "), kind.clone()));
                }
            }
            _ => problems.push(format!("field not understood: {}", field.join(" "))),
        }
    }
    fields
}

/// A C type, with the name that may stand behind it.
fn c_type(tokens: &[String]) -> Option<(String, Option<String>)> {
    let mut constant = false;
    let mut words = Vec::new();
    let mut pointers = 0;
    for token in tokens {
        match token.as_str() {
            "const" if pointers == 0 => constant = true,
            "const" | "restrict" | "struct" | "extern" => {}
            "*" => pointers += 1,
            // An array parameter is a pointer; its extent says nothing.
            "[" => {
                pointers += 1;
                break;
            }
            word => words.push(word),
        }
    }
    let (base, name) = match words[..] {
        [base] => (base, None),
        [base, name] => (base, Some(name.to_string())),
        _ => return None,
    };
    let base = match base {
        "uint8_t" => "u8".to_string(),
        "uint16_t" => "u16".to_string(),
        "uint32_t" => "u32".to_string(),
        "uint64_t" => "u64".to_string(),
        "size_t" => "usize".to_string(),
        other => struct_key(other),
    };
    let pointer = match (pointers, constant) {
        (0, _) => "",
        (1, true) => "*const ",
        (1, false) => "*mut ",
        _ => return None,
    };
    Some((format!("{pointer}{base}"), name))
}

/// The attributes before an item, each without its brackets and blanks.
fn attribute(cursor: &mut Cursor, attributes: &mut Vec<String>) -> bool {
    let starts = cursor.peek() == "#"
        && cursor
            .tokens
            .get(cursor.at + 1)
            .is_some_and(|next| next == "[");
    if starts {
        cursor.next();
        attributes.push(cursor.bracketed().concat());
    }
    starts
}

/// The fields of a struct in braces, as Rust and Rattle write them.
fn named_fields(body: &[String], problems: &mut Vec<String>) -> Fields {
    let mut fields = Vec::new();
    for field in split(body, ",") {
        let mut cursor = Cursor::new(field);
        while attribute(&mut cursor, &mut Vec::new()) {}
        cursor.take(&["pub"]);
        let name = cursor.next().to_string();
        if cursor.next() == ":" && !cursor.ended() {
            fields.push((name, plain_type(&field[cursor.at..])));
        } else {
            problems.push(format!("field not understood: {}", field.join(" ")));
        }
    }
    fields
}

/// A number, a pointer or a struct in Rust or Rattle. A path before a struct's
/// name falls away.
fn plain_type(tokens: &[String]) -> String {
    let mut words: Vec<&str> = tokens.iter().map(String::as_str).collect();
    let base = words.pop().unwrap_or_default();
    while let [.., _, ":", ":"] = words[..] {
        words.truncate(words.len() - 3);
    }
    let base = if NUMBERS.contains(&base) {
        base.to_string()
    } else {
        struct_key(base)
    };
    match words[..] {
        [] => base,
        ["*", "const"] => format!("*const {base}"),
        ["*", "mut"] => format!("*mut {base}"),
        // Left as it stands, it differs from anything in C.
        _ => tokens.join(" "),
    }
}

/// The name in C of a slice's length, which is plain for a reader's text.
fn length_name(slice: &str) -> String {
    match slice {
        "text" => "len".to_string(),
        _ => format!("{slice}_len"),
    }
}

/// The parameters and result of a function, from its opening bracket on. A
/// slice is a pointer and a length in C.
fn signature(cursor: &mut Cursor) -> Option<Function> {
    let mut parameters = Vec::new();
    for parameter in split(cursor.bracketed(), ",") {
        let mut parts = Cursor::new(parameter);
        parts.take(&["mut"]);
        let name = parts.next().to_string();
        if parts.next() != ":" {
            return None;
        }
        let pointer = if parts.take(&["&", "mut", "["]) {
            "*mut "
        } else if parts.take(&["&", "["]) {
            "*const "
        } else {
            parameters.push((name, plain_type(&parameter[parts.at..])));
            continue;
        };
        parts.at -= 1;
        let length = (length_name(&name), "usize".to_string());
        parameters.push((name, format!("{pointer}{}", plain_type(parts.bracketed()))));
        parameters.push(length);
    }
    let result = if cursor.take(&["->"]) {
        let start = cursor.at;
        cursor.next();
        while cursor.take(&[":", ":"]) {
            cursor.next();
        }
        plain_type(&cursor.tokens[start..cursor.at.min(cursor.tokens.len())])
    } else {
        "()".to_string()
    };
    Some(Function { parameters, result })
}

/// Structs and the functions of `extern "C"` blocks.
fn parse_rust(text: &str) -> Declarations {
    let tokens = tokens(text);
    let mut cursor = Cursor::new(&tokens);
    let mut declared = Declarations::default();
    let mut attributes = Vec::new();
    while !cursor.ended() {
        if attribute(&mut cursor, &mut attributes) || cursor.take(&["pub"]) {
            continue;
        }
        if cursor.take(&["struct"]) {
            c_struct(&mut cursor, &attributes, &mut declared);
        } else if cursor.take(&["extern", "\"C\"", "{"]) {
            cursor.at -= 1;
            for declaration in split(cursor.bracketed(), ";") {
                let mut part = Cursor::new(declaration);
                while attribute(&mut part, &mut Vec::new()) || part.take(&["pub"]) {}
                let name = if part.take(&["fn"]) { part.next() } else { "" };
                match signature(&mut part) {
                    Some(function) if !name.is_empty() => {
                        declared.add_function(name.to_string(), function);
                    }
                    _ => declared
                        .problems
                        .push(format!("not understood: {}", declaration.join(" "))),
                }
            }
        } else {
            cursor.next();
        }
        attributes.clear();
    }
    declared
}

/// A struct whose layout is C's; others are of no concern here.
fn c_struct(cursor: &mut Cursor, attributes: &[String], declared: &mut Declarations) {
    let name = cursor.next();
    if cursor.peek() == "{" {
        let body = cursor.bracketed();
        if attributes.iter().any(|attribute| attribute == "repr(C)") {
            let fields = named_fields(body, &mut declared.problems);
            declared.add_struct(name, fields);
        }
    }
}

/// Structs and the exported functions of the library's own source.
fn parse_rattle(text: &str) -> Declarations {
    let tokens = tokens(text);
    let mut cursor = Cursor::new(&tokens);
    let mut declared = Declarations::default();
    let mut attributes = Vec::new();
    while !cursor.ended() {
        if attribute(&mut cursor, &mut attributes) || cursor.take(&["pub"]) {
            continue;
        }
        let exported = attributes
            .iter()
            .any(|attribute| attribute.contains("no_mangle"));
        if cursor.take(&["struct"]) {
            c_struct(&mut cursor, &attributes, &mut declared);
        } else if cursor.take(&["extern", "\"C\"", "fn"]) {
            let name = cursor.next().to_string();
            match signature(&mut cursor) {
                Some(function) => {
                    if !exported {
                        declared
                            .problems
                            .push(format!("function {name} lacks #[unsafe(no_mangle)]"));
                    }
                    declared.add_function(name, function);
                }
                None => declared
                    .problems
                    .push(format!("function {name} is not understood")),
            }
        } else {
            if exported {
                let word = cursor.peek();
                declared.problems.push(format!(
                    "#[unsafe(no_mangle)] before {word}, not extern \"C\" fn"
                ));
            }
            cursor.next();
        }
        attributes.clear();
    }
    declared
}

#[cfg(test)]
mod tests {
    use std::{env, process};

    use super::*;

    const HEADER: &str = r#"
        /* Readers. */
        #ifndef JISKROMET_H
        #define JISKROMET_H
        #include <stdint.h>
        #ifdef __cplusplus
        extern "C" {
        #endif
        enum { JK_END = 0, JK_CHARACTER = 1 };
        typedef struct jk_item {
            uint32_t kind; // what it is
            uint32_t fault, value;
            uint64_t offset; uint64_t length;
        } jk_item;
        typedef struct jk_conversion { uint32_t fault; uint64_t offset, units; } jk_conversion;
        jk_item jk_fss_utf_item_at(const uint8_t *text, size_t len, size_t offset);
        jk_conversion jk_utf16_to_ucs4(const uint16_t *src, size_t src_len,
                                       uint32_t *dst, size_t dst_len);
        jk_conversion jk_utf16_to_ucs4_length(const uint16_t *src, size_t src_len);
        jk_conversion jk_fss_utf_to_utf_ebcdic(const uint8_t *src, size_t src_len, uint8_t *dst, size_t dst_len);
        typedef struct jk_decoding {
            uint32_t fault; uint64_t offset; uint64_t items; uint64_t marks;
        } jk_decoding;
        jk_decoding jk_utf16_decode_lossy(const uint16_t *text, size_t len,
            uint32_t *values, size_t values_len, uint32_t *starts, size_t starts_len);
        jk_item jk_utf16_item_covering(const uint16_t *text, size_t len, size_t offset);
        static inline size_t jk_next(jk_item item) { return item.length; }
        #ifdef __cplusplus
        }
        #endif
        #endif
    "#;

    const RUST: &str = r#"
        use crate::reference::Form;
        #[repr(C)]
        #[derive(Clone, Copy)]
        pub struct JkItem { pub kind: u32, pub fault: u32, pub value: u32, pub offset: u64, pub length: u64 }
        #[repr(C)]
        pub struct JkConversion { pub fault: u32, pub offset: u64, pub units: u64, }
        #[repr(C)]
        pub struct JkDecoding { pub fault: u32, pub offset: u64, pub items: u64, pub marks: u64 }
        struct Other { x: i8 }
        extern "C" {
            fn jk_fss_utf_item_at(text: *const u8, len: usize, offset: usize) -> JkItem;
            fn jk_utf16_to_ucs4(src: *const u16, src_len: usize, dst: *mut u32, dst_len: usize)
                -> JkConversion;
            fn jk_utf16_to_ucs4_length(src: *const u16, src_len: usize) -> JkConversion;
            fn jk_fss_utf_to_utf_ebcdic(
                src: *const u8,
                src_len: usize,
                dst: *mut u8,
                dst_len: usize,
            ) -> JkConversion;
            fn jk_utf16_decode_lossy(
                text: *const u16,
                len: usize,
                values: *mut u32,
                values_len: usize,
                starts: *mut u32,
                starts_len: usize,
            ) -> JkDecoding;
            fn jk_utf16_item_covering(text: *const u16, len: usize, offset: usize) -> JkItem;
        }
    "#;

    const RATTLE: &str = r#"
        /// One item.
        #[repr(C)]
        pub struct JkItem {
            pub kind: u32,
            pub fault: u32, pub value: u32,
            /// Units.
            pub offset: u64, pub length: u64,
        }
        #[repr(C)]
        pub struct JkConversion { pub fault: u32, pub offset: u64, pub units: u64 }
        #[repr(C)]
        pub struct JkDecoding { pub fault: u32, pub offset: u64, pub items: u64, pub marks: u64 }
        #[unsafe(no_mangle)]
        pub extern "C" fn jk_fss_utf_item_at(text: &[u8], offset: usize) -> JkItem
            ensures { result == told(read(text@, offset)) }
        {
            let c = '{';
            item(text, offset)
        }
        #[unsafe(no_mangle)]
        pub extern "C" fn jk_utf16_to_ucs4(src: &[u16], dst: &mut [u32]) -> JkConversion {
            convert(src, dst)
        }
        #[unsafe(no_mangle)]
        pub extern "C" fn jk_utf16_to_ucs4_length(src: &[u16]) -> JkConversion
            ensures { result == told(measured(src@)) }
        {
            measure(src)
        }
        #[unsafe(no_mangle)]
        pub extern "C" fn jk_fss_utf_to_utf_ebcdic(src: &[u8], dst: &mut [u8]) -> JkConversion
            ensures { result == told(converted(src@, old(dst)@)) && dst@ == cells(src@, old(dst)@) }
        {
            convert(src, dst)
        }
        #[unsafe(no_mangle)]
        pub extern "C" fn jk_utf16_decode_lossy(
            text: &[u16], values: &mut [u32], starts: &mut [u32]
        ) -> JkDecoding
            ensures { values@ == read(text@).values && starts@ == read(text@).starts }
        {
            decode(text, values, starts)
        }
        #[unsafe(no_mangle)]
        pub extern "C" fn jk_utf16_item_covering(text: &[u16], offset: usize) -> JkItem {
            find(text, offset)
        }
    "#;

    /// The wrapper's declarations are as they should be.
    fn failures(header: &str, library: &str, sources: &str) -> Vec<String> {
        compared(header, library, RUST, sources)
    }

    fn compared(header: &str, library: &str, wrapper: &str, sources: &str) -> Vec<String> {
        let mut group = Group::default();
        compare(&mut group, header, library, wrapper, sources);
        group.shown().to_vec()
    }

    #[test]
    fn equal_texts_pass() {
        assert_eq!(failures(HEADER, RUST, RATTLE), Vec::<String>::new());
        // The wrapper's functions are public, its fields are not.
        let wrapper = RUST.replace("pub ", "").replace(" fn ", " pub fn ");
        assert_eq!(
            compared(HEADER, RUST, &wrapper, RATTLE),
            Vec::<String>::new()
        );
    }

    /// A change in the wrapper alone is seen, and named as the wrapper's.
    #[test]
    fn each_difference_of_the_wrapper_is_seen() {
        for (from, to) in [
            ("offset: usize) -> JkItem", "offset: u32) -> JkItem"),
            ("*mut u32", "*const u32"),
            (
                "u16, len: usize, offset: usize) -> JkItem",
                "u16, len: usize, offset: usize) -> JkDecoding",
            ),
            ("items: u64, pub marks", "marks: u64, pub items"),
            ("offset: u64, pub length", "length: u64, pub offset"),
            ("fn jk_utf16_item_covering", "fn jk_utf16_covering"),
            ("#[repr(C)]", ""),
        ] {
            let seen = compared(HEADER, RUST, &RUST.replace(from, to), RATTLE);
            assert!(
                seen.iter().any(|why| why.contains("the wrapper's sys.rs")),
                "{from}: {seen:?}"
            );
        }
        assert!(!compared(HEADER, RUST, "", RATTLE).is_empty());
    }

    /// Each change in one text alone is seen and named.
    #[test]
    fn each_difference_is_seen() {
        let header = |from: &str, to: &str| failures(&HEADER.replace(from, to), RUST, RATTLE);
        let rust = |from: &str, to: &str| failures(HEADER, &RUST.replace(from, to), RATTLE);
        let rattle = |from: &str, to: &str| failures(HEADER, RUST, &RATTLE.replace(from, to));
        let changes = [
            header("size_t offset)", "uint32_t offset)"),
            header("const uint8_t *text", "uint8_t *text"),
            header("uint32_t *dst", "const uint32_t *dst"),
            header("uint64_t length", "uint32_t length"),
            header("offset, units", "units, offset"),
            header(
                "jk_item jk_fss_utf_item_at",
                "jk_conversion jk_fss_utf_item_at",
            ),
            header("jk_utf16_to_ucs4", "jk_utf16_to_ucs_4"),
            header(
                "_length(const uint16_t *src, size_t src_len)",
                "_length(const uint16_t *src)",
            ),
            header(
                "const uint8_t *src, size_t src_len, uint8_t *dst",
                "uint8_t *src, size_t src_len, const uint8_t *dst",
            ),
            header(
                "uint8_t *dst, size_t dst_len",
                "uint8_t *src, size_t src_len",
            ),
            header("uint8_t *dst, size_t dst_len", "uint8_t *dst"),
            header("uint8_t *dst, size_t dst_len", "uint8_t *, size_t"),
            header(
                "jk_conversion jk_utf16_to_ucs4_length",
                "jk_item jk_utf16_to_ucs4_length",
            ),
            header(
                "jk_conversion { uint32_t fault",
                "jk_conversion { uint64_t fault",
            ),
            header("uint32_t *values", "uint32_t *starts"),
            header(
                "uint32_t *values, size_t values_len, uint32_t *starts, size_t starts_len",
                "uint32_t *starts, size_t starts_len, uint32_t *values, size_t values_len",
            ),
            header("uint32_t *starts, size_t starts_len", "uint32_t *starts"),
            header(
                "uint64_t items; uint64_t marks",
                "uint64_t marks; uint64_t items",
            ),
            header(
                "jk_item jk_utf16_item_covering",
                "jk_decoding jk_utf16_item_covering",
            ),
            header("jk_utf16_item_covering", "jk_utf16_covering"),
            header("uint64_t length;", "uint64_t size;"),
            header("fault, value", "value, fault"),
            header(
                "uint64_t offset; uint64_t length",
                "uint64_t length; uint64_t offset",
            ),
            rust("len: usize, offset: usize", "len: usize"),
            rust("values: *mut u32", "values: *const u32"),
            rust("starts_len: usize", "starts_len: u32"),
            rust("items: u64, pub marks", "marks: u64, pub items"),
            rust(
                "u16, len: usize, offset: usize) -> JkItem",
                "u16, len: usize, offset: usize) -> JkDecoding",
            ),
            rust("kind: u32, pub fault", "fault: u32, pub kind"),
            rust("value: u32, pub offset: u64", "offset: u64, pub value: u32"),
            rust("offset: u64, pub length", "length: u64, pub offset"),
            rust("*mut u32", "*const u32"),
            rust("*const u16", "*const u8"),
            rust("dst: *mut u8", "dst: *mut u16"),
            rust("src: *const u8,", "dst: *const u8,"),
            rust("pub units: u64", "pub count: u64"),
            rattle("&mut [u32]", "&[u32]"),
            rattle("starts: &mut [u32]", "starts: &[u32]"),
            rattle("values: &mut [u32], starts", "starts: &mut [u32], values"),
            rattle("values: &mut [u32], ", ""),
            rattle("offset: usize) -> JkItem {", "offset: u64) -> JkItem {"),
            rattle(
                "offset: usize) -> JkItem {",
                "offset: usize) -> JkDecoding {",
            ),
            rattle("offset: u64, pub length", "length: u64, pub offset"),
            rattle("fault: u32, pub value", "value: u32, pub fault"),
            rattle("&[u16]", "&[u8]"),
            rattle("dst: &mut [u8]", "dst: &mut [u16]"),
            rattle("src: &[u8], dst: &mut [u8]", "dst: &mut [u8], src: &[u8]"),
            rattle("src: &[u8], dst: &mut [u8]", "dst: &[u8], src: &mut [u8]"),
            rattle(
                "pub fault: u32, pub offset: u64",
                "pub offset: u64, pub fault: u32",
            ),
            rattle("offset: usize) -> JkItem", "offset: u64) -> JkItem"),
            rattle("pub kind: u32", "pub kind: u8"),
            rattle("pub extern \"C\" fn jk_utf16", "pub fn jk_utf16"),
            rattle("#[unsafe(no_mangle)]", ""),
            rattle("#[repr(C)]", ""),
            rattle(
                "#[unsafe(no_mangle)]",
                "#[unsafe(no_mangle)] pub extern \"C\" fn jk_more(text: &[u8]) -> JkItem { } #[unsafe(no_mangle)]",
            ),
        ];
        for (number, seen) in changes.iter().enumerate() {
            assert!(!seen.is_empty(), "change {number} went unseen");
        }
    }

    /// The exports may stand in any number of files, in folders too.
    #[test]
    fn every_source_is_read() {
        let folder = env::temp_dir().join(format!("second-declarations-{}", process::id()));
        let inner = folder.join("inner");
        fs::create_dir_all(&inner).expect("a folder for the test");
        // The structs in one file, each function in one of its own.
        let mut parts = RATTLE.split("#[unsafe(no_mangle)]");
        let structs = parts.next().expect("a first part");
        fs::write(folder.join("structs.rt"), structs).expect("a file for the test");
        for (number, part) in parts.enumerate() {
            let place = if number % 2 == 0 { &folder } else { &inner };
            let text = format!("#[unsafe(no_mangle)]{part}");
            fs::write(place.join(format!("part{number}.rt")), text).expect("a file for the test");
        }
        fs::write(
            folder.join("notes.txt"),
            "#[unsafe(no_mangle)] pub fn other() {}",
        )
        .expect("a file for the test");
        let sources = read_sources(&folder);
        fs::remove_dir_all(&folder).expect("the test's folder");
        let sources = sources.expect("the sources");
        assert_eq!(failures(HEADER, RUST, &sources), Vec::<String>::new());
    }

    #[test]
    fn nothing_declared_is_a_failure() {
        assert!(!failures("", RUST, RATTLE).is_empty());
        assert!(!failures("", "", "").is_empty());
    }
}
