//! The functions for C and Rust, as the crates, the header and `ffi` declare them.

use crate::repository::{files, text, top};

/// Parameters with their types in Rattle, and the answer's type.
#[derive(Clone, Debug, PartialEq, Eq, PartialOrd, Ord)]
pub struct Signature {
    pub name: String,
    pub parameters: Vec<(String, String)>,
    pub answer: String,
}

impl Signature {
    /// Of a text that starts with the name; what stands behind the answer's type does not matter.
    fn of(declaration: &str) -> Signature {
        let (name, rest) = declaration.split_once('(').expect("parameters");
        let (list, rest) = rest.split_once(')').expect("the parameters' end");
        let parameter = |parameter: &str| {
            let (name, of) = parameter.split_once(':').expect("a type");
            (name.trim().to_owned(), of.trim().to_owned())
        };
        let list = list.split(',').filter(|part| !part.trim().is_empty());
        let answer = rest.trim_start().strip_prefix("->").expect("an answer");
        let end = |c: char| c.is_whitespace() || ";{".contains(c);
        Signature {
            name: name.trim().to_owned(),
            parameters: list.map(parameter).collect(),
            answer: answer.trim_start().split(end).take(1).collect(),
        }
    }

    /// As the header has it, on one line.
    pub fn in_c(&self) -> String {
        let parameter = |(name, of): &(String, String)| match entry(of) {
            Some((constant, entry)) => {
                format!("{constant}{} *{name}, size_t {name}_length", number(entry))
            }
            None => format!("{} {name}", number(of)),
        };
        let parameters: Vec<String> = self.parameters.iter().map(parameter).collect();
        let (answer, name) = (number(&self.answer), &self.name);
        format!("{answer} {name}({})", parameters.join(", "))
    }
}

/// Of a slice `const` where it is shared, and its entry's type.
fn entry(of: &str) -> Option<(&str, &str)> {
    let slice = of.strip_suffix(']')?;
    match slice.strip_prefix("&mut [") {
        Some(entry) => Some(("", entry)),
        None => Some(("const ", slice.strip_prefix("&[")?)),
    }
}

fn number(of: &str) -> String {
    match of {
        "usize" => "size_t".to_owned(),
        "u8" | "u16" | "u32" | "u64" => format!("uint{}_t", &of[1..]),
        _ => panic!("{of} is no number"),
    }
}

fn without_line_comments(text: &str) -> String {
    let code = |line: &str| line.split("//").take(1).collect::<String>() + "\n";
    text.lines().map(code).collect()
}

/// What the crates declare for C, by name.
pub fn of_crates() -> Vec<Signature> {
    let sources = files(&top().join("crates"), &[".rt"]);
    let mut found = Vec::new();
    for source in sources {
        let text = without_line_comments(&text(&source));
        let functions = text.split("pub extern \"C\" fn ").skip(1);
        found.extend(functions.map(Signature::of));
    }
    found.sort();
    found
}

/// The parameters that a `Slices`, a `Lent` or maps pass, as the macro `call!` of `ffi` takes them apart.
fn taken_apart(ffi: &str, of: &str) -> Vec<(String, String)> {
    let rule = format!("$parts:ident: {of},");
    let (_, rule) = ffi.split_once(&rule).expect("a rule of `call!`");
    let parameter = |line: &str| {
        let line = line.trim().strip_prefix("($parts.")?;
        let (name, of) = line.strip_suffix(',')?.split_once("): ")?;
        Some((name.to_owned(), of.to_owned()))
    };
    rule.lines().skip(2).map_while(parameter).collect()
}

/// Where `ffi` has its declarations.
pub fn library(ffi: &str) -> &str {
    let (_, declarations) = ffi.split_once("\nlibrary! {").expect("declarations");
    declarations.split("\n}\n").next().expect("their end")
}

/// What `ffi` declares, by name.
pub fn of_ffi(ffi: &str) -> Vec<Signature> {
    let declarations = library(ffi).split("fn ").skip(1);
    let mut found: Vec<Signature> = declarations.map(Signature::of).collect();
    for function in &mut found {
        function.name.insert_str(0, "planner_");
        let parameters = std::mem::take(&mut function.parameters).into_iter();
        let parts = |(name, of): (String, String)| match of.as_str() {
            "Slices" | "Lent" | "Maps" | "LentMaps" => taken_apart(ffi, &of),
            _ => vec![(name, of)],
        };
        function.parameters = parameters.flat_map(parts).collect();
    }
    found.sort();
    found
}

/// The header's declarations, each on one line, sorted.
pub fn of_header(header: &str) -> Vec<String> {
    let parts = header.split("*/");
    let code: String = parts.flat_map(|part| part.split("/*").take(1)).collect();
    let outside = |line: &&str| !line.starts_with('#') && !["extern \"C\" {", "}"].contains(line);
    let code: Vec<&str> = code.lines().filter(outside).collect();
    let code = code.join(" ");
    let words = |part: &str| part.split_whitespace().collect::<Vec<_>>().join(" ");
    let declarations = code.split(';').map(|part| words(part).replace("( ", "("));
    let mut found: Vec<String> = declarations.filter(|part| !part.is_empty()).collect();
    found.sort();
    found
}
