//! Holds the sources of the crate `tadlovimpe`, the header, the Rust binding and the Python binding to each other: functions with
//! parameters, types and results in order, fields of structs, numbers by name, and what the bindings pass on. Holds the header to the
//! library's symbols, too, and to the numbers in docs/FORMAT.md. Prints each difference, and nothing where there is none.
//! usage: bindings ROOT SYMBOLS

use std::collections::{BTreeMap, BTreeSet};
use std::fs::{read_dir, read_to_string};

/// The verdicts in the source, with what has them.
const KINDS: [(&str, &str); 5] = [
    ("Verdict", "None"),
    ("Verdict", "Refused"),
    ("Secret", "Opened"),
    ("Secret", "Recovered"),
    ("Secret", "Stuck"),
];

/// What Python passes on by the places of its fields.
const TUPLES: [&str; 2] = ["Round", "Proof"];

/// Words, texts in quotes, and single signs, without comments.
fn tokens(text: &str, comment: &str) -> Vec<String> {
    let mut found: Vec<String> = Vec::new();
    for line in text.lines() {
        let (mut in_word, mut in_text) = (false, false);
        for c in line.split(comment).next().unwrap().chars() {
            let is_word = c.is_alphanumeric() || c == '_';
            if in_text || in_word && is_word {
                found.last_mut().unwrap().push(c);
            } else if !c.is_whitespace() {
                found.push(c.to_string());
            }
            in_word = is_word && !in_text;
            in_text ^= c == '"';
        }
    }
    found
}

/// The places behind those where these tokens stand.
fn behind(tokens: &[String], wanted: &[&str]) -> Vec<usize> {
    let is_end = |&end: &usize| tokens[end - wanted.len()..end] == *wanted;
    (wanted.len()..tokens.len()).filter(is_end).collect()
}

/// The place behind the next such token.
fn next(tokens: &[String], at: usize, wanted: &str) -> usize {
    at + 1 + tokens[at..].iter().position(|t| t == wanted).expect(wanted)
}

/// What stands between the bracket at a place and its partner, split at a sign.
fn parts<'a>(tokens: &'a [String], open: usize, sign: &str) -> Vec<Vec<&'a str>> {
    let (mut depth, mut found) = (1, vec![vec![]]);
    for token in tokens[open + 1..].iter().map(String::as_str) {
        depth += ["(", "[", "{"].contains(&token) as i32;
        depth -= [")", "]", "}"].contains(&token) as i32;
        match depth {
            0 => break,
            1 if token == sign => found.push(vec![]),
            _ => found.last_mut().unwrap().push(token),
        }
    }
    found.retain(|part| !part.is_empty());
    found
}

/// The names in a list of names with types.
fn names(list: &str) -> Vec<&str> {
    list.split(", ")
        .map(|part| part.split(':').next().unwrap())
        .collect()
}

/// What one of the four says: "fn NAME", "struct NAME", "number NAME" and so on, each with the rest as one text. Types are written as
/// in Rust; a list that is lent is a pointer and a length.
#[derive(Default)]
struct Side(BTreeMap<String, String>);

impl Side {
    fn add(&mut self, what: &str, name: &str, rest: impl ToString) {
        self.0.insert(format!("{what} {name}"), rest.to_string());
    }

    /// A type or a number, as any of the languages names it.
    fn plain(&self, word: &str) -> String {
        let word = match word {
            "uint8_t" | "c_uint8" => "u8",
            "uint32_t" | "c_uint32" => "u32",
            "size_t" | "c_size_t" => "usize",
            "tadlovimpe_answer" => "Answer",
            "tadlovimpe_part" => "Part",
            "tadlovimpe_verdict" => "VerdictFigures",
            "tadlovimpe_board" => "BoardAnswer",
            "tadlovimpe_proof" | "_proof" => "Proof",
            "tadlovimpe_round" | "_round" => "Round",
            _ => word
                .trim_start_matches("TADLOVIMPE")
                .trim_start_matches('_'),
        };
        let number = self.0.get(&format!("number {word}"));
        number.map_or(word, String::as_str).to_string()
    }

    /// One parameter or field, as Rattle, Rust, C or Python writes it.
    fn named(&self, part: &[&str]) -> String {
        let t = |word: &str| self.plain(word);
        let array = |e: &str, k: &str| format!("[{}; {}]", t(e), t(k));
        let lent =
            |n: &str, access: &str, e: &str| format!("{n}: *{access} {}, {n}_len: usize", t(e));
        match part {
            ["pub", rest @ ..] => self.named(rest),
            [n, ":", "&", "[", e, "]"] => lent(n, "const", e),
            [n, ":", "&", "mut", "[", e, "]"] => lent(n, "mut", e),
            [n, ":", "&" | "*", "mut", "[", e, ";", k, "]"] => format!("{n}: *mut {}", array(e, k)),
            [n, ":", "*", access, e] => format!("{n}: *{access} {}", t(e)),
            [n, ":", "[", e, ";", k, "]"] | [e, n, "[", k, "]"] => format!("{n}: {}", array(e, k)),
            ["const", e, "*", n] => format!("{n}: *const {}", t(e)),
            [e, "*", n] => format!("{n}: *mut {}", t(e)),
            [n, ":", e] | [e, n] => format!("{n}: {}", t(e)),
            ["(", n, ",", e, ")"] => format!("{}: {}", n.trim_matches('"'), t(e)),
            ["(", n, ",", e, "*", k, ")"] => format!("{}: {}", n.trim_matches('"'), array(e, k)),
            [n, "=", "_bytes", "(", m, ")"] if n == m => lent(n, "const", "u8"),
            [n, "=", "_words", "(", m, ")"] if n == m => lent(n, "const", "u32"),
            [n, "=", e @ ("_u32" | "_round" | "_proof"), "(", m, ")"] if n == m => {
                format!("{n}: {}", t(e))
            }
            other => format!("not understood: {}", other.join(" ")),
        }
    }

    fn list(&self, parts: &[Vec<&str>]) -> String {
        parts
            .iter()
            .map(|part| self.named(part))
            .collect::<Vec<_>>()
            .join(", ")
    }

    /// Rattle or Rust: numbers, functions behind a head, and structs of C's layout.
    fn read_rust(&mut self, tokens: &[String], head: &[&str]) {
        for at in behind(tokens, &["const"]) {
            if tokens[at + 3] == "=" {
                self.add("number", &tokens[at], &tokens[at + 4]);
            }
        }
        for at in behind(tokens, head) {
            if tokens[at].starts_with("tadlovimpe_") {
                let list = self.list(&parts(tokens, at + 1, ","));
                let result = next(tokens, at, ")");
                let result = tokens[result..result + 3].concat();
                self.add("fn", &tokens[at], format!("({list}) {result}"));
            }
        }
        for at in behind(tokens, &["repr", "(", "C", ")"]) {
            let name = next(tokens, at, "struct");
            let fields = self.list(&parts(tokens, name + 1, ","));
            self.add("struct", &tokens[name], fields);
        }
    }

    fn read_rattle(&mut self, tokens: &[String]) {
        self.read_rust(tokens, &["no_mangle", ")", "]", "pub", "extern", "\"C\"", "fn"]);
        for (of, kind) in KINDS {
            for at in behind(tokens, &[of, ":", ":", kind]) {
                let number = &tokens[next(tokens, at, ">") + 1];
                self.add("kind", &kind.to_uppercase(), number);
            }
        }
    }

    /// C: numbers and structs, and then the functions.
    fn read_c(&mut self, tokens: &[String]) {
        for at in behind(tokens, &["typedef", "enum"]) {
            for part in parts(tokens, at, ",") {
                let (name, number) = (self.plain(part[0]), part[2]);
                match tokens[next(tokens, at, "}")].as_str() {
                    "tadlovimpe_kind" => self.add("kind", &name, number),
                    _ if name == "OK" && number == "0" => continue,
                    _ => self.add("refusal", number, ""),
                }
                self.add("number", &name, number);
            }
        }
        for at in behind(tokens, &["define"]) {
            if tokens[at + 1].parse::<u32>().is_ok() {
                self.add("number", &self.plain(&tokens[at]), &tokens[at + 1]);
            }
        }
        for at in behind(tokens, &["typedef", "struct"]) {
            let name = self.plain(&tokens[next(tokens, at, "}")]);
            let fields = self.list(&parts(tokens, at, ";"));
            if TUPLES.contains(&name.as_str()) {
                self.add("tuple", &name, names(&fields).join(" "));
            }
            self.add("struct", &name, fields);
        }
        self.read_c_functions(tokens);
    }

    /// Beside a function: its symbol in the library, the arguments of a call, and the parameters of a function that calls it.
    fn read_c_functions(&mut self, tokens: &[String]) {
        for at in behind(tokens, &["("]) {
            let name = tokens[at - 2].as_str();
            if name.starts_with("tadlovimpe_") {
                // An array as a parameter is a pointer.
                let list = self
                    .list(&parts(tokens, at - 1, ","))
                    .replace(": [", ": *mut [");
                self.add("symbol", name, "");
                self.add("call", name, names(&list).join(" "));
                let lent = names(&list)
                    .into_iter()
                    .filter(|name| !name.ends_with("_len") && *name != "out");
                self.add("caller", name, lent.collect::<Vec<_>>().join(" "));
                let result = self.plain(&tokens[at - 3]);
                self.add("fn", name, format!("({list}) ->{result}"));
            }
        }
    }

    /// Python: numbers, structs and tuples, and then the functions.
    fn read_python(&mut self, tokens: &[String]) {
        for at in behind(tokens, &["="]) {
            let name = tokens[at - 2].as_str();
            let is_constant = name.starts_with(char::is_uppercase) && name == name.to_uppercase();
            if is_constant && tokens[at].parse::<u32>().is_ok() {
                self.add("number", name, &tokens[at]);
            }
        }
        for at in behind(tokens, &["(", "Structure", ")", ":", "_fields_", "="]) {
            let fields = self.list(&parts(tokens, at, ","));
            self.add("struct", &self.plain(&tokens[at - 7]), fields);
        }
        for name in TUPLES {
            let at = next(tokens, 0, name);
            let fields = &tokens[at..next(tokens, at, "class")];
            let names: Vec<&str> = behind(fields, &[":", "int"])
                .into_iter()
                .map(|field| fields[field - 3].as_str())
                .collect();
            self.add("tuple", name, names.join(" "));
        }
        self.read_python_calls(tokens);
    }

    /// A function by how it is called.
    fn read_python_calls(&mut self, tokens: &[String]) {
        for at in behind(tokens, &["_call", "("]) {
            let mut arguments = parts(tokens, at - 1, ",");
            let Some(name) = arguments[0][0].strip_prefix('"') else {
                continue;
            };
            // What is written to is made above, as out = (ELEMENT * LENGTH)().
            let made = behind(&tokens[..at], &["out", "=", "("]).pop().unwrap_or(0);
            let (element, length) = (tokens[made].as_str(), tokens[made + 2].as_str());
            for argument in &mut arguments {
                *argument = match argument.join("").as_str() {
                    "out=_out(out)" => vec!["out", ":", "&", "mut", "[", element, "]"],
                    "out=_out_array(out)" => {
                        vec!["out", ":", "&", "mut", "[", element, ";", length, "]"]
                    }
                    _ => continue,
                };
            }
            let list = self.list(&arguments[2..]);
            let rest = format!("({list}) ->{}", self.plain(arguments[1][0]));
            self.add(
                "fn",
                &format!("tadlovimpe_{}", name.trim_end_matches('"')),
                rest,
            );
        }
    }

    /// The functions above the declared ones: their parameters, and in Rust what they pass on.
    fn read_callers(&mut self, tokens: &[String], head: &[&str]) {
        for at in behind(tokens, head) {
            if !tokens[at].starts_with('_') {
                let mut parameters = parts(tokens, next(tokens, at, "(") - 1, ",");
                parameters.retain(|part| part[0] != "out");
                let names: Vec<&str> = parameters.iter().map(|part| part[0]).collect();
                self.add(
                    "caller",
                    &format!("tadlovimpe_{}", tokens[at]),
                    names.join(" "),
                );
            }
        }
        for at in behind(tokens, &["unsafe", "{", "raw", ":", ":"]) {
            let passed = parts(tokens, at + 1, ",")
                .into_iter()
                .map(|part| match part[..] {
                    [name]
                    | ["&", "mut", name]
                    | [name, ".", "as_ptr" | "as_mut_ptr", "(", ")"] => name.to_string(),
                    [name, ".", "len", "(", ")"] => format!("{name}_len"),
                    _ => part.join(" "),
                });
            self.add("call", &tokens[at], passed.collect::<Vec<_>>().join(" "));
        }
    }
}

/// The sides but the header, each with what of it is held to the header.
type Held = [(&'static str, Side, &'static str); 5];

fn header(root: &str) -> Side {
    let text = read(root, "include/tadlovimpe.h");
    let pieces = text.split("/*");
    let pieces = pieces.map(|piece| piece.split_once("*/").map_or(piece, |(_, rest)| rest));
    let mut header = Side::default();
    header.read_c(&tokens(&pieces.collect::<String>(), "//"));
    header
}

fn held(root: &str, symbols: &str) -> Held {
    let [mut source, mut rust, mut python, mut library, mut document] =
        [(); 5].map(|()| Side::default());
    for entry in read_dir(format!("{root}/crates/tadlovimpe/src")).unwrap() {
        let text = read_to_string(entry.unwrap().path()).unwrap();
        source.read_rattle(&tokens(&text, "//"));
    }
    source.read_rattle(&tokens(&read(root, "crates/sharing/src/lib.rt"), "//"));
    let safe = tokens(&read(root, "bindings/rust/src/lib.rs"), "//");
    rust.read_rust(&safe, &["fn"]);
    let raw = tokens(&read(root, "bindings/rust/src/raw.rs"), "//");
    rust.read_rust(&raw, &["fn"]);
    rust.read_callers(&safe, &["pub", "fn"]);
    let text = read(root, "bindings/python/tadlovimpe.py");
    let text = tokens(&text.split("\"\"\"").step_by(2).collect::<String>(), "#");
    python.read_python(&text);
    python.read_callers(&text, &["def"]);
    for symbol in read_to_string(symbols).expect(symbols).lines() {
        library.add("symbol", symbol, "");
    }
    let text = read(root, "docs/FORMAT.md");
    let rows = text
        .lines()
        .skip_while(|line| *line != "| number | refused |");
    for row in rows.skip(2).take_while(|line| line.starts_with('|')) {
        document.add("refusal", row.split('|').nth(1).unwrap().trim(), "");
    }
    [
        ("source", source, "fn struct kind"),
        ("Rust", rust, "fn struct number caller call"),
        ("Python", python, "fn struct number caller tuple"),
        ("library", library, "symbol"),
        ("docs/FORMAT.md", document, "refusal"),
    ]
}

fn read(root: &str, path: &str) -> String {
    read_to_string(format!("{root}/{path}")).expect(path)
}

fn main() {
    let arguments: Vec<String> = std::env::args().collect();
    let header = header(&arguments[1]);
    let mut differ = 0;
    for (name, side, kinds) in held(&arguments[1], &arguments[2]) {
        let kinds: Vec<&str> = kinds.split(' ').collect();
        let mut keys: BTreeSet<&String> = side.0.keys().chain(header.0.keys()).collect();
        keys.retain(|key| kinds.contains(&key.split(' ').next().unwrap()));
        for key in keys {
            let (ours, theirs) = (side.0.get(key), header.0.get(key));
            if ours != theirs {
                println!("{key}\n  {name}: {ours:?}\n  header: {theirs:?}");
                differ += 1;
            }
        }
    }
    std::process::exit((differ > 0) as i32);
}
