//! Holds the numbers of include/unvriscol.h, which are written by hand, against the definitions', and the safe crate's against both.
use std::collections::BTreeMap;
use std::fmt::Debug;
use std::path::Path;
use unvriscol::{
    AluKind, Block, BranchKind, DecodedInsn, Error, LoadKind, MAX_BLOCK_OPS, Reading, StoreKind,
    door, store_len,
};

fn read(path: &str) -> String {
    let root = Path::new(concat!(env!("CARGO_MANIFEST_DIR"), "/../.."));
    std::fs::read_to_string(root.join(path)).unwrap_or_else(|why| panic!("{path}: {why}"))
}

/// The words of a text: names and numbers.
fn words(text: &str) -> impl Iterator<Item = &str> {
    text.split(|c: char| !c.is_alphanumeric() && c != '_')
        .filter(|word| !word.is_empty())
}

/// A name and its number.
type Named = (String, u64);

/// The antt definitions of the records, the store and the answers.
struct Definitions(String);

impl Definitions {
    fn new() -> Self {
        let files = [
            "answer/specs/Answer",
            "op/specs/Kinds",
            "op/specs/Reading",
            "op/specs/Record",
            "block/specs/Memory",
            "block/specs/Record",
            "block/specs/WellFormed",
            "store/specs/Layout",
            "reading/specs/Readings",
        ];
        Self(
            files
                .map(|file| read(&format!("crates/{file}.antt")))
                .concat(),
        )
    }

    /// What stands left and right of the `=` of each clause of a definition.
    fn clauses(&self, name: &str) -> Vec<(&str, String)> {
        let mut clauses = Vec::new();
        let mut lines = self.0.lines().peekable();
        while let Some(line) = lines.next() {
            let behind = line.strip_prefix(name).filter(|rest| rest.starts_with(' '));
            if let Some((left, right)) = behind.and_then(|rest| rest.split_once('=')) {
                let mut right = right.to_owned();
                while let Some(more) = lines.next_if(|line| line.starts_with(' ')) {
                    right += more;
                }
                clauses.push((left, right));
            }
        }
        assert!(!clauses.is_empty(), "there is no definition {name}");
        clauses
    }

    /// The right side of a definition of one clause.
    fn body(&self, name: &str) -> String {
        let [(_, body)] = &self.clauses(name)[..] else {
            panic!("{name} has several clauses")
        };
        body.clone()
    }

    /// A number, or the name of one.
    fn number(&self, word: &str) -> Option<u64> {
        word.parse().ok().or_else(|| {
            let lines = &mut self.0.lines();
            lines.find_map(|line| line.strip_prefix(word)?.strip_prefix(" = ")?.parse().ok())
        })
    }

    fn numbers_of(&self, text: &str) -> Vec<u64> {
        words(text).filter_map(|word| self.number(word)).collect()
    }

    /// The numbers on the right side of a definition, in their order.
    fn numbers(&self, name: &str) -> Vec<u64> {
        self.numbers_of(&self.body(name))
    }

    /// The elements of a list.
    fn list(&self, name: &str) -> Vec<String> {
        let body = self.body(name);
        words(&body).map(str::to_owned).collect()
    }
}

/// The fields of a list of bytes and where each begins; the last is behind it. `le n x` is n bytes, and anything else one.
fn layout(body: &str) -> Vec<Named> {
    let mut at = 0;
    let mut fields = Vec::new();
    for item in body.split("∷").flat_map(|part| part.split("++")) {
        let words: Vec<&str> = words(item).collect();
        let Some(field) = words.last() else { continue };
        fields.push((field.to_string(), at));
        at += match words[..] {
            ["le", bytes, ..] => bytes.parse().expect("a count of bytes"),
            _ => 1,
        };
    }
    fields.push(("end".into(), at));
    fields
}

/// The header's macros and enums, without the comments.
struct Header {
    text: String,
    macros: BTreeMap<String, Vec<u64>>,
}

impl Header {
    fn new() -> Self {
        let mut text = String::new();
        for part in read("include/unvriscol.h").split("/*") {
            text += part.split_once("*/").map_or(part, |(_, behind)| behind);
        }
        let mut macros = BTreeMap::new();
        for line in text.lines() {
            let Some(rest) = line.strip_prefix("#define ") else {
                continue;
            };
            let (name, body) = rest.split_once([' ', '(']).unwrap_or((rest, ""));
            // A name stands for the numbers that it was defined by.
            let numbers = words(body)
                .flat_map(|word| match word.parse() {
                    Ok(number) => vec![number],
                    Err(_) => macros.get(word).cloned().unwrap_or_default(),
                })
                .collect();
            macros.insert(name.to_owned(), numbers);
        }
        Self { text, macros }
    }

    /// The numbers in a macro, in their order.
    fn numbers(&self, name: &str) -> &[u64] {
        let numbers = self.macros.get(name);
        numbers.unwrap_or_else(|| panic!("the header does not define {name}"))
    }

    /// A macro that is one number.
    fn number(&self, name: &str) -> u64 {
        match *self.numbers(name) {
            [number] => number,
            _ => panic!("{name} is not one number"),
        }
    }

    /// The names of an enum and their numbers.
    fn enumerators(&self, tag: &str) -> Vec<Named> {
        let begin = format!("enum {tag} {{");
        let (_, rest) = self.text.split_once(&begin).expect(tag);
        let (inside, _) = rest.split_once('}').expect(tag);
        let words: Vec<&str> = words(inside).collect();
        words
            .chunks(2)
            .map(|pair| (pair[0].into(), pair[1].parse().expect(pair[0])))
            .collect()
    }

    /// That each field of a record begins where its macro says.
    fn hold(&self, fields: &[Named], names: &[(&str, &str)]) {
        for (field, name) in names {
            let here = fields.iter().find(|(there, _)| there == field);
            let (_, at) = here.unwrap_or_else(|| panic!("no definition has {field}"));
            assert_eq!(self.number(name), *at, "{name}");
        }
    }
}

/// SextB becomes SEXT_B.
fn upper(name: &str) -> String {
    let mut upper = String::new();
    for c in name.chars() {
        if c.is_uppercase() && !upper.is_empty() {
            upper.push('_');
        }
        upper.push(c.to_ascii_uppercase());
    }
    upper
}

#[test]
fn answers() {
    let (header, definitions) = (Header::new(), Definitions::new());
    let refusals = [
        ("NoStore", "UV_NO_STORE", Error::NoStore),
        ("BadGeometry", "UV_GEOMETRY", Error::Geometry),
        ("OutsideMemory", "UV_OUTSIDE_MEMORY", Error::OutsideMemory),
        ("NoOp", "UV_NOTHING_THERE", Error::NothingThere),
        ("IllFormed", "UV_ILL_FORMED", Error::IllFormed),
        ("WrongBuffer", "UV_RECORD_LENGTH", Error::RecordLength),
        ("NoKind", "UV_NO_KIND", Error::NoKind),
        ("WrongWriteSize", "UV_WRITE_SIZE", Error::WriteSize),
        ("NothingFound", "UV_MISS", Error::Miss),
    ];
    let defined: Vec<(String, Vec<u64>)> = definitions
        .clauses("refusal_number")
        .iter()
        .map(|(left, right)| (left.trim().to_owned(), definitions.numbers_of(right)))
        .collect();
    let here = refusals.map(|(name, in_c, _)| (name.to_owned(), vec![header.number(in_c)]));
    assert_eq!(here, defined[..]);
    let here = refusals.map(|(name, _, error)| (name.to_owned(), vec![error.number()]));
    assert_eq!(here, defined[..], "crate");
    let (left, right) = &definitions.clauses("answer_number")[0];
    assert_eq!(left.trim(), "(Ok value)");
    assert_eq!(header.numbers("UV_DONE"), definitions.numbers_of(right));
}

#[test]
fn ops() {
    let (header, definitions) = (Header::new(), Definitions::new());
    let mut defined = Vec::new();
    for (left, right) in definitions.clauses("op_fields") {
        let name = words(left).next().expect("an op");
        let number = definitions.numbers_of(&right)[0];
        let record = [number as u8, 0, 0, 0, 0, 4, 0, 0, 0, 0, 0, 0, 0, 0, 0, 0];
        let op = DecodedInsn::from_record(&record).expect(name).op;
        assert_eq!(words(&format!("{op:?}")).next(), Some(name), "crate");
        defined.push((format!("UV_OP_{}", upper(name)), number));
    }
    assert_eq!(header.enumerators("uv_op"), defined);
}

#[test]
fn kinds() {
    fn one<K: Debug>(list: &str, tag: &str, prefix: &str, all: &[K]) {
        let defined = Definitions::new().list(list);
        let printed: Vec<String> = all.iter().map(|kind| format!("{kind:?}")).collect();
        assert_eq!(printed, defined, "crate");
        let in_c = defined
            .iter()
            .map(|name| format!("{prefix}{}", upper(name)));
        let numbered: Vec<Named> = in_c.zip(0..).collect();
        assert_eq!(Header::new().enumerators(tag), numbered);
    }
    one("alu_kinds", "uv_alu_kind", "UV_ALU_", AluKind::ALL);
    one("load_kinds", "uv_load_kind", "UV_LOAD_", LoadKind::ALL);
    one("store_kinds", "uv_store_kind", "UV_STORE_", StoreKind::ALL);
    one(
        "branch_kinds",
        "uv_branch_kind",
        "UV_BRANCH_",
        BranchKind::ALL,
    );
}

#[test]
fn readings() {
    let (header, definitions) = (Header::new(), Definitions::new());
    let numbers = [Reading::Rust, Reading::Manual].map(Reading::number);
    let in_c = ["UV_READING_RUST", "UV_READING_MANUAL"].map(|name| header.number(name));
    assert_eq!(numbers, in_c);
    assert_eq!(numbers.map(|n| Reading::ALL[n as usize].number()), numbers);
    // The highest that is known, and the one that is the manual's.
    assert_eq!(definitions.numbers("reading_known"), [numbers[1]]);
    let body = definitions.body("reading_of");
    assert_eq!(
        words(&body).collect::<Vec<_>>(),
        ["cond", "eqb", "n", "1", "manual", "rust"]
    );
}

/// Any other number answers 2, ahead of every other refusal, and changes no byte.
#[test]
fn no_other_reading() {
    let page = [0x13; 4096];
    for reading in [2, 3, 255, 256, 1 << 32, 1 << 63, u64::MAX] {
        for len in [0, 15, 16, 1040, 4200] {
            let mut lent = vec![0xA5; len];
            let at = lent.as_mut_ptr();
            // SAFETY: pointer and length of one buffer each, lent for the call.
            let answers = unsafe {
                [
                    door::uv_decode_word(reading, 0x0AC5_D533, at, len),
                    door::uv_decode_word(reading, 0x0000_0073, at, len),
                    door::uv_decode_halfword(reading, 0x8082, at, len),
                    door::uv_decode_halfword(reading, 0x9002, at, len),
                    door::uv_form(reading, page.as_ptr(), 4096, 0, 0, at, len),
                    door::uv_form(reading, page.as_ptr(), 4096, 0, 4096, at, len),
                    door::uv_make(at, len, reading, 2, 0, 1),
                ]
            };
            assert_eq!(answers, [Error::Geometry.number(); 7], "{reading} {len}");
            assert!(lent.iter().all(|&byte| byte == 0xA5));
        }
    }
}

#[test]
fn the_op_record() {
    let (header, definitions) = (Header::new(), Definitions::new());
    let names = [
        ("op", "UV_OP_AT_OP"),
        ("kind", "UV_OP_AT_KIND"),
        ("rd", "UV_OP_AT_RD"),
        ("rs1", "UV_OP_AT_RS1"),
        ("rs2", "UV_OP_AT_RS2"),
        ("ilen", "UV_OP_AT_ILEN"),
        ("pcOff", "UV_OP_AT_PC_OFF"),
        ("imm", "UV_OP_AT_IMM"),
        ("end", "UV_OP_RECORD"),
    ];
    header.hold(&layout(&definitions.body("op_bytes")), &names);
    assert_eq!(header.number("UV_OP_RECORD"), DecodedInsn::LEN as u64);
}

#[test]
fn the_block_record() {
    let (header, definitions) = (Header::new(), Definitions::new());
    let names = [
        ("address", "UV_BLOCK_AT_ADDRESS"),
        ("count", "UV_BLOCK_AT_COUNT"),
        ("len", "UV_BLOCK_AT_BYTE_LEN"),
        ("end", "UV_BLOCK_AT_OPS"),
    ];
    header.hold(&layout(&definitions.body("head_bytes")), &names);

    let [address, count, len, ops] = names.map(|(_, name)| header.number(name));
    let [record, op, most, page] = ["UV_BLOCK_RECORD", "UV_OP_RECORD", "UV_MAX_OPS", "UV_PAGE"]
        .map(|name| header.number(name));
    // Length, address, the four zeros, the count of ops, byte_len within the page, the ops.
    assert_eq!(
        definitions.numbers("well_formed"),
        [
            record, address, 12, 0, 1, count, count, most, page, len, page, ops, count, 0, len
        ]
    );
    assert_eq!(record, ops + op * most);
    assert_eq!(record, Block::LEN as u64);
    assert_eq!(most, MAX_BLOCK_OPS as u64);
}

#[test]
fn the_store() {
    let (header, definitions) = (Header::new(), Definitions::new());
    // The header is the signature, with the version as its only 1, and fields behind it.
    let signature = definitions.body("signature");
    let whole = definitions.body("header");
    let (first, behind) = whole.split_once("++").expect("fields");
    assert_eq!(words(first).next(), Some("signature"));
    let fields = layout(&format!("{signature} ++ {behind}"));
    let names = [
        ("86", "UV_HEADER_AT_NAME"),
        ("reading", "UV_HEADER_AT_READING"),
        ("1", "UV_HEADER_AT_VERSION"),
        ("e", "UV_HEADER_AT_E"),
        ("base", "UV_HEADER_AT_BASE"),
        ("pages", "UV_HEADER_AT_PAGES"),
        ("generation", "UV_HEADER_AT_GENERATION"),
        ("end", "UV_HEADER"),
    ];
    header.hold(&fields, &names);
    assert_eq!(header.number("UV_STORE_VERSION"), 1);

    assert_eq!(header.numbers("UV_FRONT"), definitions.numbers("front"));
    let record = header.numbers("UV_BLOCK_RECORD");
    assert_eq!(record, definitions.numbers("geometry"));
    // By 2, and into 2^e, which C has as 1 << e.
    let slot = [definitions.numbers("slot_of")[0], 1];
    assert_eq!(header.numbers("UV_SLOT"), slot);
}

#[test]
fn the_bounds() {
    let (header, definitions) = (Header::new(), Definitions::new());
    let [page, pages, e] = ["UV_PAGE", "UV_MAX_PAGES", "UV_MAX_E"].map(|name| header.number(name));
    let &[1, bits] = header.numbers("UV_MEMORY_END") else {
        panic!("UV_MEMORY_END is a power of two")
    };
    // Whole pages from a page's start, at least one and at most so many, up to 2^56.
    assert_eq!(
        definitions.numbers("good_memory"),
        [page, 0, page, 0, page, pages, page, 2, bits]
    );
    assert_eq!(definitions.numbers("sized"), [e, page]);
    let front = 32 + pages.div_ceil(64) * 8;
    let longest = front + header.number("UV_BLOCK_RECORD") * (1 << e);
    assert_eq!(store_len(e, pages), Some(longest as usize));
    assert_eq!(
        (store_len(e + 1, pages), store_len(e, pages + 1)),
        (None, None)
    );
}

/// The C functions that a text declares, in their order.
fn functions(text: &str) -> Vec<&str> {
    text.split("uv_")
        .filter_map(|rest| Some(rest.split_once('(')?.0))
        .filter(|name| name.chars().all(|c| c.is_ascii_lowercase() || c == '_'))
        .collect()
}

#[test]
fn the_functions() {
    let rattle = read("crates/unvriscol/src/lib.rt");
    let proved = functions(&rattle);
    assert_eq!(proved.len(), 12);
    assert_eq!(functions(&Header::new().text), proved);
    assert_eq!(functions(&read("host/unvriscol/src/door.rs")), proved);
}

/// The parameters of a function that a text declares.
fn parameters<'a>(text: &'a str, name: &str) -> Vec<&'a str> {
    let (_, rest) = text.split_once(&format!(" uv_{name}(")).expect(name);
    let (inside, _) = rest.split_once(')').expect(name);
    let each = inside.split(',').map(str::trim);
    each.filter(|parameter| !parameter.is_empty()).collect()
}

#[test]
fn what_they_take() {
    let rattle = read("crates/unvriscol/src/lib.rt");
    let rust = read("host/unvriscol/src/door.rs");
    let header = Header::new().text;
    // A slice passes as pointer and count.
    let types: [(&str, &[(&str, &str)]); 6] = [
        ("u16", &[("u16", "uint16_t")]),
        ("u32", &[("u32", "uint32_t")]),
        ("u64", &[("u64", "uint64_t")]),
        (
            "&mut [u8]",
            &[("*mut u8", "uint8_t *"), ("usize", "size_t")],
        ),
        (
            "&[u8]",
            &[("*const u8", "const uint8_t *"), ("usize", "size_t")],
        ),
        (
            "&[u64]",
            &[("*const u64", "const uint64_t *"), ("usize", "size_t")],
        ),
    ];
    for name in functions(&rattle) {
        let kind = |parameter: &str| parameter.split_once(": ").expect(name).1.to_owned();
        let expected: Vec<(String, String)> = parameters(&rattle, name)
            .into_iter()
            .flat_map(|parameter| {
                let proved = kind(parameter);
                let known = types.iter().find(|(rattle, _)| *rattle == proved);
                known.unwrap_or_else(|| panic!("{name}: {proved}")).1
            })
            .map(|(here, c)| (here.to_string(), c.to_string()))
            .collect();
        let here = parameters(&rust, name).into_iter().map(kind);
        let in_c = parameters(&header, name).into_iter().map(|parameter| {
            let behind = |c: char| c.is_alphanumeric() || c == '_';
            parameter.trim_end_matches(behind).trim_end().to_owned()
        });
        let (here, in_c): (Vec<_>, Vec<_>) = (here.collect(), in_c.collect());
        let (expected_here, expected_in_c): (Vec<_>, Vec<_>) = expected.into_iter().unzip();
        assert_eq!(here, expected_here, "{name}");
        assert_eq!(in_c, expected_in_c, "{name}");
    }
}

/// What each function of a text in Rattle or Rust returns.
fn results(text: &str) -> Vec<&str> {
    text.split("fn uv_")
        .skip(1)
        .filter_map(|rest| words(rest.split_once("-> ")?.1).next())
        .collect()
}

#[test]
fn what_they_return() {
    let rattle = read("crates/unvriscol/src/lib.rt");
    let rust = read("host/unvriscol/src/door.rs");
    let header = Header::new().text;
    let in_c: Vec<&str> = functions(&rattle)
        .iter()
        .map(|name| {
            let (before, _) = header.split_once(&format!(" uv_{name}(")).expect(name);
            before.lines().last().expect(name)
        })
        .collect();
    let names = [
        ("u64", "u64", "uint64_t"),
        ("Numbered", "Answer", "uv_answer"),
        ("NumberedReport", "NumberedReport", "uv_report"),
    ];
    let all = results(&rattle).into_iter().zip(results(&rust)).zip(in_c);
    for ((proved, here), c) in all {
        assert!(names.contains(&(proved, here, c)), "{proved} {here} {c}");
    }
    for (proved, here, c) in &names[1..] {
        let fields = |text: &str, name: &str| -> Vec<String> {
            let (_, rest) = text
                .split_once(&format!("pub struct {name} {{"))
                .expect(name);
            let (inside, _) = rest.split_once('}').expect(name);
            words(inside).map(str::to_owned).collect()
        };
        let of_c = header.split_once(&format!("}} {c};")).expect(c).0;
        let (_, of_c) = of_c.rsplit_once('{').expect(c);
        let of_c: Vec<&str> = words(of_c).collect();
        let expected = fields(&rattle, proved);
        assert_eq!(fields(&rust, here), expected, "{here}");
        let typed = of_c.chunks(2).flat_map(|pair| {
            let (kind, field) = (pair[0], pair[1]);
            ["pub", field, if kind == "uint64_t" { "u64" } else { kind }]
        });
        assert_eq!(typed.collect::<Vec<_>>(), expected, "{c}");
    }
}

#[test]
fn the_version() {
    let header = Header::new();
    let [major, minor, patch] = ["MAJOR", "MINOR", "PATCH"].map(|part| {
        let name = format!("UNVRISCOL_VERSION_{part}");
        header.number(&name)
    });
    let cargo = env!("CARGO_PKG_VERSION");
    assert_eq!(format!("{major}.{minor}.{patch}"), cargo);
    let one = [10_000, major, 100, minor, patch];
    assert_eq!(header.numbers("UNVRISCOL_VERSION"), one);
}
