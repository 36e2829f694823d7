//! For the build scripts of `rust_over_rules` and `rust_over_std`: reads the Rust of the source folder and writes it to
//! OUT_DIR/source.rs, once for each rule set.
//!
//! Nothing of the source stands in this repository. GINTUBALOS_RUST_SOURCE is the folder that has `src/lets_be_rational`;
//! its default is `../shared/docs/src`, seen from the repository's root. Where it isn't there, absent.rs is written in its
//! place, `cfg(rust_source)` is not set, and a warning says so.
//!
//! Each file has the list of what is replaced in it, with the count. Another count stops the build, so that a changed
//! source is noticed.

use std::{
    env, fs,
    path::{Path, PathBuf},
    process::exit,
};

/// The functions that the source is written over.
#[derive(Clone, Copy, PartialEq, Eq)]
pub enum Over {
    /// Std's, as the source has them.
    Std,
    /// Document 01's, with the calls that show the solver's steps or without them.
    Rules { steps: bool },
}

const VARIABLE: &str = "GINTUBALOS_RUST_SOURCE";
/// Seen from the crate that is built.
const DEFAULT: &str = "../../../shared/docs/src";

/// Methods of f64 that document 01 has rules for, and the trait methods that they go to. An inherent method wins over a
/// trait's of the same name, so the names differ.
const METHODS: [(&str, &str); 15] = [
    (".exp()", ".rule_exp()"),
    (".ln()", ".rule_ln()"),
    (".sqrt()", ".rule_sqrt()"),
    (".floor()", ".rule_floor()"),
    (".abs()", ".rule_abs()"),
    (".max(", ".rule_max("),
    ("f64::max(", "Rules::rule_max("),
    (".mul_add(", ".rule_mul_add("),
    ("f64::mul_add(", "Rules::rule_mul_add("),
    (".powi(2)", ".rule_powi_2()"),
    (".powf(1.0 / 3.0)", ".rule_powf_1_3()"),
    (".is_zero()", ".rule_is_zero()"),
    // A panic becomes document 01's number for its cause.
    (".expect(\"We should expect correct parameters\")", ".rule_expect(6)"),
    (".expect(\"Asymptotic expansion failed\")", ".rule_expect(7)"),
    (".expect(\"Small t expansion failed\")", ".rule_expect(8)"),
];

/// What makes every function and constant visible, and the two registry crates ours: the cdf and its inverse are over the
/// erfc of the same rule set.
const NAMES: [(&str, &str); 6] = [
    ("\nfn ", "\npub fn "),
    ("\nconst ", "\npub const "),
    ("pub(crate) ", "pub "),
    ("use statrs::", "use crate::statrs::"),
    ("use num_traits::", "use crate::num_traits::"),
    ("Normal::standard()", "Normal::over(super::cody::optimized::erfc)"),
];

/// What keeps s before a step, and what records the completed step.
const BEFORE: &str = "let before = s; ";
const AFTER: &str = " crate::steps::add_step(before, b, bp, s_left, s_right, s);";

/// The calls that show the solver's steps: a piece of it, what is put before and after the piece, and how often the piece
/// stands there. The solver computes what it did; `steps` gets the branch, the step test and each completed step.
const HOOKS: [(&str, &str, &str, usize); 8] = [
    ("s_right = s_l;", "", " crate::steps::set_branch(1);", 1),
    ("s_left = s_l;", "", " crate::steps::set_branch(2);", 1),
    ("s_left = s_c;", "", " crate::steps::set_branch(3);", 1),
    // The upper tail is branch 5 until the upper loop is chosen.
    ("s_left = s_h;", "", " crate::steps::set_branch(5);", 1),
    ("if beta > 0.5 * b_max {", "", " crate::steps::set_branch(4);", 1),
    ("if ds.abs() <= f64::EPSILON * s {", "", " crate::steps::set_close();", 3),
    ("s += ds.max(-0.5 * s);", BEFORE, AFTER, 2),
    ("s += ds;", BEFORE, AFTER, 1),
];
const SOLVER: &str = "src/lets_be_rational/so_rational.rs";

/// A piece of a file that a rule set has otherwise: the file, the piece, what stands there instead, and how often the piece
/// stands there.
type Change = (&'static str, &'static str, &'static str, usize);

/// A rule set: the module that has the source under it, and what is changed in the source.
struct RuleSet {
    module: &'static str,
    changes: &'static [Change],
}

/// Document 02's rule sets, in the order of their numbers. Each is the whole source under a name of its own, so that what is
/// changed in one file reaches every other one that uses it.
const RULE_SETS: [RuleSet; 2] = [
    RuleSet { module: MOD.module, changes: &[] },
    // "The reference for rule set 1 is the Rust with its two cap arms exchanged."
    RuleSet {
        module: "rule_set_1",
        changes: &[
            (SOLVER, "OptionType::Call => strike_price,", "OptionType::Call => forward_price,", 1),
            (SOLVER, "OptionType::Put => forward_price,", "OptionType::Put => strike_price,", 1),
        ],
    },
];

/// How the source names itself in a path.
const PATH: &str = "lets_be_rational::";

/// Method calls that stay as they are: no arithmetic of std's is behind them.
const HARMLESS: [&str; 5] = ["cdf", "inverse_cdf", "is_infinite", "pdf", "to_string"];

struct File {
    path: &'static str,
    module: &'static str,
    /// How often each pattern of METHODS and of NAMES stands in the file, and the name of the whole source in a path.
    methods: [usize; 15],
    names: [usize; 6],
    paths: usize,
}

const FILES: [File; 6] = [
    File {
        path: "src/lets_be_rational/black.rs",
        module: "black",
        methods: [11, 0, 0, 0, 4, 4, 0, 42, 1, 0, 0, 0, 0, 1, 1],
        names: [2, 5, 2, 1, 0, 0],
        paths: 1,
    },
    File {
        path: "src/lets_be_rational/cody/optimized.rs",
        module: "optimized",
        methods: [5, 0, 0, 2, 2, 0, 0, 0, 0, 0, 0, 0, 0, 0, 0],
        names: [7, 10, 0, 0, 0, 0],
        paths: 0,
    },
    File {
        path: "src/lets_be_rational/intrinsic.rs",
        module: "intrinsic",
        methods: [1, 0, 0, 0, 0, 2, 0, 0, 0, 0, 0, 0, 0, 0, 0],
        names: [0, 2, 1, 0, 0, 0],
        paths: 0,
    },
    File {
        path: "src/lets_be_rational/normal_distribution.rs",
        module: "normal_distribution",
        methods: [0; 15],
        names: [0, 0, 0, 1, 0, 3],
        paths: 0,
    },
    File {
        path: "src/lets_be_rational/rational_cubic.rs",
        module: "rational_cubic",
        methods: [0, 0, 1, 0, 3, 1, 3, 2, 0, 0, 0, 5, 0, 0, 0],
        names: [2, 2, 0, 0, 1, 0],
        paths: 0,
    },
    File {
        path: SOLVER,
        module: "so_rational",
        methods: [7, 4, 5, 0, 9, 6, 0, 0, 0, 9, 1, 0, 4, 0, 0],
        names: [6, 9, 3, 0, 0, 0],
        paths: 1,
    },
];

const INPUTS: File =
    File { path: "src/inputs.rs", module: "inputs", methods: [0; 15], names: [0, 0, 0, 0, 1, 0], paths: 0 };

const MOD: File = File {
    path: "src/lets_be_rational/mod.rs",
    module: "lets_be_rational",
    methods: [0, 1, 3, 0, 0, 2, 0, 0, 0, 0, 0, 0, 0, 0, 0],
    names: [0, 1, 3, 1, 0, 0],
    paths: 3,
};

/// The modules that mod.rs declares; they are written out inside it.
const DECLARATIONS: [&str; 6] = [
    "\nmod black;",
    "\nmod cody;",
    "\nmod intrinsic;",
    "\npub mod normal_distribution;",
    "\nmod rational_cubic;",
    "\nmod so_rational;",
];

fn fail(what: &str) -> ! {
    println!("cargo:warning={what}");
    eprintln!("{what}");
    exit(1)
}

/// Replaces one pattern and holds its count to what is expected. Where `from` begins with a dot it is a method; a longer
/// name in front of a path, as in `xf64::max(`, can't occur in valid Rust of this folder.
fn replace(text: &str, path: &str, from: &str, to: &str, expected: usize) -> String {
    let count = text.matches(from).count();
    if count != expected {
        let piece = from.trim();
        fail(&format!("{path}: `{piece}` stands {count} times, expected {expected}: the source has changed"));
    }
    text.replace(from, to)
}

/// No method is left that is neither ours nor known to be harmless.
fn check_methods(text: &str, path: &str) {
    for (at, _) in text.match_indices('.') {
        let rest = &text[at + 1..];
        let end = rest.find(|c: char| !(c.is_ascii_alphanumeric() || c == '_')).unwrap_or(rest.len());
        let name = &rest[..end];
        let is_call = rest[end..].starts_with('(') && name.starts_with(|c: char| c.is_ascii_lowercase());
        if is_call && !name.starts_with("rule_") && !HARMLESS.contains(&name) {
            fail(&format!("{path}: the method `{name}` has no rule: the source has changed"));
        }
    }
}

fn read(root: &Path, file: &File) -> String {
    let path = root.join(file.path);
    println!("cargo:rerun-if-changed={}", path.display());
    match fs::read_to_string(&path) {
        Ok(text) => text,
        Err(e) => fail(&format!("{}: {e}", path.display())),
    }
}

fn transform(root: &Path, file: &File, over: Over, rule_set: &RuleSet) -> String {
    // A line feed in front, so that a first line is found as any other is.
    let mut text = format!("\n{}", read(root, file));
    for (_, from, to, count) in rule_set.changes.iter().filter(|(path, ..)| *path == file.path) {
        text = replace(&text, file.path, from, to, *count);
    }
    text = replace(&text, file.path, PATH, &format!("{}::", rule_set.module), file.paths);
    if file.path == SOLVER && over == (Over::Rules { steps: true }) {
        for (piece, before, after, count) in HOOKS {
            text = replace(&text, file.path, piece, &format!("{before}{piece}{after}"), count);
        }
    }
    for (&(from, to), &count) in METHODS.iter().zip(&file.methods) {
        // The counts are checked in either case.
        text = replace(&text, file.path, from, if over == Over::Std { from } else { to }, count);
    }
    for (&(from, to), &count) in NAMES.iter().zip(&file.names) {
        text = replace(&text, file.path, from, to, count);
    }
    if file.path != INPUTS.path && over != Over::Std {
        check_methods(&text, file.path);
    }
    text
}

fn module(name: &str, text: &str, over: Over) -> String {
    let allow = "#[allow(dead_code, unused_imports, unused_assignments, clippy::all)]";
    let rules = if over == Over::Std { "" } else { "use crate::{elementary::Rules, refusals::Expect};" };
    format!("{allow}\npub mod {name} {{\n    {rules}\n{text}\n}}\n")
}

/// The whole source under a rule set.
fn tree(root: &Path, over: Over, rule_set: &RuleSet) -> String {
    for (path, piece, ..) in rule_set.changes {
        if FILES.iter().chain([&MOD]).all(|file| file.path != *path) {
            fail(&format!("{path}: no such file, so `{piece}` is not changed"));
        }
    }
    let mut inner = String::new();
    for file in &FILES {
        let text = module(file.module, &transform(root, file, over, rule_set), over);
        // The source folder's own cody/mod.rs is not among the files: it only declares `optimized`.
        inner += &if file.module == "optimized" { format!("pub mod cody {{\n{text}}}\n") } else { text };
    }
    let mut outer = transform(root, &MOD, over, rule_set);
    for declaration in DECLARATIONS {
        outer = replace(&outer, MOD.path, declaration, "", 1);
    }
    module(rule_set.module, &(outer + "\n" + &inner), over)
}

/// The kinds, which all rule sets share, and the source under each.
fn source(root: &Path, over: Over) -> String {
    let inputs = module(INPUTS.module, &transform(root, &INPUTS, over, &RULE_SETS[0]), over);
    RULE_SETS.iter().fold(inputs, |all, rule_set| all + &tree(root, over, rule_set))
}

/// What stands in for it where the source folder isn't at hand.
fn absent() -> String {
    let first = include_str!("absent.rs").to_string();
    RULE_SETS[1..]
        .iter()
        .fold(first, |all, rule_set| all + &format!("\npub use {} as {};\n", MOD.module, rule_set.module))
}

/// FNV-1a of the source as it is read: says in a run's output which text ours is compared with.
fn fingerprint(root: &Path) -> u64 {
    let mut hash = 0xcbf2_9ce4_8422_2325_u64;
    for file in FILES.iter().chain([&INPUTS, &MOD]) {
        for byte in read(root, file).bytes() {
            hash = (hash ^ u64::from(byte)).wrapping_mul(0x100_0000_01b3);
        }
    }
    hash
}

/// Writes the source, and tells cargo what it depends on.
pub fn write(over: Over) {
    println!("cargo:rerun-if-env-changed={VARIABLE}");
    println!("cargo:rustc-check-cfg=cfg(rust_source)");
    let folder = |variable| PathBuf::from(env::var_os(variable).expect("cargo sets it"));
    let root = env::var_os(VARIABLE).map_or_else(|| folder("CARGO_MANIFEST_DIR").join(DEFAULT), PathBuf::from);
    println!("cargo:rerun-if-changed={}", root.join(MOD.path).display());
    let text = if root.join(MOD.path).is_file() {
        println!("cargo:rustc-cfg=rust_source");
        println!("cargo:rustc-env=GINTUBALOS_SOURCE_FINGERPRINT={:016X}", fingerprint(&root));
        source(&root, over)
    } else {
        println!(
            "cargo:warning=no Rust source: set {VARIABLE} to the folder that has {}; nothing can be compared",
            MOD.path
        );
        absent()
    };
    let out = folder("OUT_DIR").join("source.rs");
    fs::write(&out, text).unwrap_or_else(|e| fail(&format!("{}: {e}", out.display())));
}

#[cfg(test)]
mod tests {
    use super::*;

    /// The source under rule set 1 is rule set 0's but for the name, the two arms, and nothing else.
    #[test]
    fn rule_set_1_exchanges_two_arms() {
        let root =
            env::var_os(VARIABLE).map_or_else(|| Path::new(env!("CARGO_MANIFEST_DIR")).join(DEFAULT), PathBuf::from);
        if !root.join(MOD.path).is_file() {
            return;
        }
        let [first, second] = [0, 1].map(|i| tree(&root, Over::Rules { steps: true }, &RULE_SETS[i]));
        let renamed = first.replace("pub mod lets_be_rational {", "pub mod rule_set_1 {").replace(PATH, "rule_set_1::");
        let differing = renamed.lines().zip(second.lines()).filter(|(a, b)| a != b);
        let differing: Vec<[&str; 2]> = differing.map(|(a, b)| [a.trim(), b.trim()]).collect();
        let expected = [
            ["OptionType::Call => strike_price,", "OptionType::Call => forward_price,"],
            ["OptionType::Put => forward_price,", "OptionType::Put => strike_price,"],
        ];
        assert_eq!(differing, expected);
        assert_eq!(renamed.lines().count(), second.lines().count());
    }
}
