//! The C headers: they declare the archive's functions, each as it is, and a C program calls them.

use gintubalos::probe::bits;
use std::{
    collections::BTreeMap,
    env, fs,
    io::{stderr, ErrorKind, Write},
    path::Path,
    process::{Command, Stdio},
};

/// A function's type in C: what it returns, then what it takes.
type Functions = BTreeMap<String, Vec<String>>;

/// The exported functions of a part of the crate `abi`, with the types that they have in C.
fn exports(part: &str) -> Functions {
    let folder = Path::new(env!("CARGO_MANIFEST_DIR")).join("../../crates/abi/src").join(part);
    let mut functions = Functions::new();
    for entry in fs::read_dir(folder).expect("the sources of abi") {
        let text = fs::read_to_string(entry.expect("a file").path()).expect("a source");
        for part in text.split("pub extern \"C\" fn ").skip(1) {
            let (name, rest) = part.split_once('(').expect("arguments");
            let (arguments, rest) = rest.split_once(')').expect("their end");
            let result = rest.trim_start_matches(" ->").split_whitespace().next().expect("a type");
            let arguments = arguments.split(',').filter_map(|argument| argument.split_once(':'));
            let types = [result].into_iter().chain(arguments.map(|(_, t)| t.trim())).flat_map(in_c);
            functions.insert(name.to_owned(), types.map(|t| t.to_string()).collect());
        }
    }
    functions
}

fn in_c(rattle: &str) -> &'static [&'static str] {
    match rattle {
        "u64" => &["uint64_t"],
        "u8" => &["uint8_t"],
        "u32" => &["uint32_t"],
        "i32" => &["int32_t"],
        "usize" => &["size_t"],
        "&mut u8" => &["uint8_t *"],
        "&mut u32" => &["uint32_t *"],
        "&mut i32" => &["int32_t *"],
        "&mut u64" => &["uint64_t *"],
        "&[u8]" => &["const uint8_t *", "size_t"],
        "&mut [u8]" => &["uint8_t *", "size_t"],
        // An array crosses as the pointer to its bytes.
        array if array.starts_with("&[u8; ") => &["const uint8_t *"],
        array if array.starts_with("&mut [u8; ") => &["uint8_t *"],
        other => panic!("no type of C for {other}"),
    }
}

/// The functions that a header declares.
fn declarations(header: &str) -> Functions {
    let text =
        fs::read_to_string(Path::new(env!("CARGO_MANIFEST_DIR")).join("include").join(header)).expect("a header");
    let mut code = String::new();
    for part in text.split("/*") {
        code += part.split_once("*/").map_or(part, |(_, after)| after);
    }
    let code: String = code.lines().filter(|line| !line.starts_with('#')).flat_map(|line| [line, " "]).collect();
    // What the header defines itself is no function of the archive.
    let code = match code.split_once("static inline") {
        Some((before, definition)) => [before, definition.split_once('}').expect("its end").1].concat(),
        None => code,
    };
    let typed = |words: &str| {
        let name = words.rfind(|c: char| !c.is_alphanumeric() && c != '_').expect("a type and a name");
        (words[..=name].trim().to_owned(), words[name + 1..].to_owned())
    };
    let prototypes = code.split(';').filter_map(|prototype| prototype.split_once('('));
    prototypes
        .map(|(head, arguments)| {
            let (result, name) = typed(head.trim().trim_start_matches("extern \"C\" {"));
            let arguments = arguments.trim_end_matches(')').split(',').map(|argument| typed(argument.trim()).0);
            (name, [result].into_iter().chain(arguments).collect())
        })
        .collect()
}

#[test]
fn headers_and_archive_have_the_same_functions() {
    for (part, header, prefix) in
        [("product", "gintubalos.h", "gintubalos_"), ("probe", "gintubalos_probe.h", "gintubalos_probe_")]
    {
        let (exports, declarations) = (exports(part), declarations(header));
        assert!(exports.len() > 8 && exports.keys().all(|name| name.starts_with(prefix)), "{header}");
        assert_eq!(declarations, exports, "{header}");
    }
    assert!(!exports("product").keys().any(|name| name.starts_with("gintubalos_probe_")));
}

/// What the C program should print.
fn expected() -> Vec<String> {
    let x = 0.75f64.to_bits();
    let [half, eighth] = [-0.5f64, 0.125].map(f64::to_bits);
    let line = |name: &str, value: u64, number: u8| format!("{name} {value:016X} {number}");
    macro_rules! same {
        ($($name:ident($($argument:expr),*))*) => { [$(line(stringify!($name), bits::$name($($argument),*), 0)),*] };
    }
    let mut lines = vec!["environment 1 0 0 1".to_owned()];
    lines.extend(same! {
        bits_of(x) is_zero(x) abs(x) powi_2(x) floor(x) exp(x) ln(x) powf_1_3(x) d_int(x) ab(x) cd(x) pq(x)
        erfcx_above_threshold(x) erfc(x) smoothened_exponential_of_negative_square(x)
        smoothened_exponential_of_positive_square(x) erfcx(x) standard_normal_cdf(x) inverse_normal_cdf(x)
        inverse_f_upper_map(x) max(half, eighth) normalised_vega(half, eighth)
        normalised_black_call_using_erfcx(half, eighth)
        normalised_black_call_with_optimal_use_of_codys_functions(half, eighth)
    });
    let call = bits::normalised_black_call((-0.5f64).to_bits(), 0.25f64.to_bits()).0;
    let intrinsic = bits::normalised_intrinsic(1f64.to_bits(), 1).0;
    let refused = 0x7FF8 << 48;
    lines.extend([
        line("mul_add", 10f64.to_bits(), 0),
        line("normalised_intrinsic", intrinsic, 0),
        line("normalised_black", call, 0),
        line("normalised_black_call", call, 0),
        line("small_t_expansion_of_normalised_black_call", refused, 8),
        line("asymptotic_expansion_of_normalised_black_call", refused, 7),
        line("rational_cubic_interpolation", 0.125f64.to_bits(), 0),
        line("minimum_rational_cubic_control_parameter", 3f64.to_bits(), 0),
        line("rational_cubic_control_parameter", 2.25f64.to_bits(), 0),
        line("convex_rational_cubic_control_parameter", 3f64.to_bits(), 0),
        line("black", 0x4025_0A01_494A_D7E2, 0),
        line("black", refused, 4),
        line("black", refused, 24),
    ]);
    let target = bits::target(10f64.to_bits(), 100f64.to_bits(), 95f64.to_bits(), 1f64.to_bits(), 1, 0);
    assert!((f64::from_bits(target.0) - 0.0512989176042577).abs() < 1e-15 && target.1 == 0);
    lines.extend([line("target", target.0, 0), line("target", refused, 0), line("target", refused, 24)]);
    let more = "wrapper 3FC7D1E857E3FCEB 0 2 2 2
untrailed 3FC7D1E857E3FCEB 0 2 2 2
solve 3FC7D1E857E3FCEC 0 2 2 3
trail 3FC7D1E857E3FCEC 0
short 7FF8000000000000 21 0 0 0
wrapper 7FEFFFFFFFFFFFFF 0 0 0 0
untrailed 7FEFFFFFFFFFFFFF 0 0 0 0
solve 7FEFFFFFFFFFFFFF 0 0 0 0
target 0 0
wrapper 3FF061F7B1DAC668 0 2 2 2
untrailed 3FF061F7B1DAC668 0 2 2 2
solve 3FF061F7B1DAC668 0 2 2 2
target 1 0
wrapper 7FF8000000000000 32 0 0 0
untrailed 7FF8000000000000 32 0 0 0
solve 7FF8000000000000 32 0 0 0
target 0 32
bid_ask 0
low 3FC6192C31EA4EC4 0 2 2 2
high 3FC9887ED4158FB4 0 2 2 2
bid_ask 21
low 7FF8000000000000 21 0 0 0
high 7FF8000000000000 21 0 0 0
trail 3FC6192C31EA4EC4 0
trail 3FC9887ED4158FB4 0
untrailed 0
low 3FC6192C31EA4EC4 0 2 2 2
high 3FC9887ED4158FB4 0 2 2 2
untrailed 31
low 7FF8000000000000 31 0 0 0
high 7FF8000000000000 31 0 0 0
untrailed 24
low 7FF8000000000000 24 0 0 0
high 7FF8000000000000 24 0 0 0
untrailed 0
low FFEFFFFFFFFFFFFF 0 0 0 0
high 3FF061F7B1DAC668 0 2 2 2
bid_ask 32
low 7FF8000000000000 32 0 0 0
high 7FF8000000000000 32 0 0 0
file 0000000000000001 0 0 0 0
file 0000000000000002 0 0 0 0
file 0000000000000000 22 0 0 0
recheck 0000000000000000 0 0 0 0
read 0000000000000000 0
recheck 0000000000000001 0 0 0 0
read 0000000000000040 0
recheck 0000000000000000 23 0 0 0
read 0000000000000000 23
line 7 3FC7D1E857E3FCEB 2 2 2
file 0000000000000001 0 0 0 0
file 0000000000000000 32 0 0 0
recheck 0000000000000000 0 0 0 0
recheck 0000000000000001 0 0 0 0
recheck 0000000000000000 32 0 0 0
line 8 7FEFFFFFFFFFFFFF 0 0 0
highest 0 0 0000000000000000
arrive 0
arrive 33
arrive 34
arrive 0
highest 1 17 8000000000000000
leave 1
highest 1 4294967295 0000000000000000
leave 0
highest 1 4294967295 0000000000000000
full 35 0 1
highest 1 254 406FC00000000000
leave 1
freed 64 0 255
packed 000000000123456C 0
read 4028B0F27BB2FEC5 0
packed 000000000125000D 0
read C029000000000000 0
packed 000000000000000C 0
read 0000000000000000 0
packed 999999999999999C 0
read 42374876E7FFFFF9 0
packed A5A5A5A5A5A5A5A5 37
read 7FF8000000000000 36
packed A5A5A5A5A5A5A5A5 37
read 7FF8000000000000 36
sqrt 3FE6A09E667F3BCD
aligned 0020000000000000 -2
digits 0 1 2 5 11 22 45
digits 6369051672525772 6369051672525772 6369051672525772
sqrt 1E60000000000000
aligned 0010000000000000 -1074
digits 0 1 2 4 8 16 32
digits 4503599627370496 4503599627370496 4503599627370496
sqrt 8000000000000000
aligned 0000000000000000 0
digits 0 0 0 0 0 0 0
digits 0 0 0
sqrt 7FF8000000000000
aligned 0000000000000000 0
digits 0 0 0 0 0 0 0
digits 0 0 0
sqrt 7FF0000000000000
aligned 0000000000000000 0
digits 0 0 0 0 0 0 0
digits 0 0 0";
    lines.extend(more.lines().map(str::to_owned));
    lines
}

#[test]
fn c_program() {
    let here = Path::new(env!("CARGO_MANIFEST_DIR"));
    let program = Path::new(env!("CARGO_TARGET_TMPDIR")).join("calls");
    let compiler = env::var_os("CC").unwrap_or_else(|| "cc".into());
    match Command::new(&compiler).arg("--version").stdout(Stdio::null()).status() {
        Ok(_) => {}
        Err(error) if error.kind() == ErrorKind::NotFound => {
            // Past the test's own capture, so that it is seen.
            writeln!(stderr(), "no C compiler is at hand: the header was not compiled").expect("standard error");
            return;
        }
        Err(error) => panic!("{error}"),
    }
    let status = Command::new(&compiler)
        .args(["-std=c99", "-pedantic", "-Wall", "-Wextra", "-Werror", "-I"])
        .arg(here.join("include"))
        .arg(here.join("tests/c/calls.c"))
        .arg(Path::new(env!("GINTUBALOS_ARCHIVE")))
        .arg("-o")
        .arg(&program)
        .status()
        .expect("the compiler starts");
    assert!(status.success());
    let output = Command::new(&program).output().expect("the program starts");
    assert!(output.status.success());
    let text = String::from_utf8(output.stdout).expect("text");
    assert_eq!(text.lines().collect::<Vec<_>>(), expected());
}
