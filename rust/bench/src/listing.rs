//! Records a second: the program relist over a file of records, and beside it the Rust's solve in a loop over the same
//! file, each a process of its own that reads standard input and writes standard output.

use crate::inputs::Market;
use std::{
    env,
    fs::{self, File},
    io::{self, Read, Write},
    path::{Path, PathBuf},
    process::{Command, Stdio},
    time::{Duration, Instant},
};

const RECORD: usize = 64;
const BLOCK: usize = 1024 * RECORD;

/// The word after `--list`, for the two sides of the Rust.
pub const RUST_SIDES: [&str; 2] = ["rules", "published"];

/// A call with price, forward, strike, expiry and the kind's byte, and a limit.
pub type Solve = fn([f64; 4], u8, i32) -> f64;

fn record(market: &Market) -> [u8; RECORD] {
    let mut bytes = [0; RECORD];
    for (i, x) in market.floats.iter().enumerate() {
        bytes[8 * i..8 * i + 8].copy_from_slice(&x.to_le_bytes());
    }
    bytes[40] = 2;
    bytes[48] = market.kind;
    bytes
}

/// The loop over the Rust's solve. It checks the layout and the input as relist does. Branch, ending and steps aren't to be
/// had from the Rust, and are written as 0.
pub fn list(solve: Solve) -> io::Result<()> {
    let (mut input, mut output) = (io::stdin().lock(), io::stdout().lock());
    let (mut block, mut lines) = (Vec::with_capacity(BLOCK), Vec::new());
    let mut index = 0_u64;
    loop {
        block.clear();
        lines.clear();
        input.by_ref().take(BLOCK as u64).read_to_end(&mut block)?;
        for bytes in block.chunks(RECORD) {
            line(&mut lines, index, bytes, solve);
            index += 1;
        }
        output.write_all(&lines)?;
        if block.len() < BLOCK {
            return Ok(());
        }
    }
}

fn line(lines: &mut Vec<u8>, index: u64, bytes: &[u8], solve: Solve) {
    put_decimal(lines, index);
    match answer(bytes, solve) {
        Ok(volatility) => {
            lines.push(b' ');
            let bits = volatility.to_bits();
            lines.extend((0..16).map(|i| b"0123456789ABCDEF"[(bits >> (60 - 4 * i)) as usize & 15]));
            lines.extend_from_slice(b" 0 0 0\n");
        }
        Err(number) => {
            lines.extend_from_slice(b" REF ");
            put_decimal(lines, number);
            lines.push(b'\n');
        }
    }
}

fn put_decimal(lines: &mut Vec<u8>, number: u64) {
    let (mut digits, mut at, mut rest) = ([0; 20], 20, number);
    loop {
        at -= 1;
        digits[at] = b'0' + (rest % 10) as u8;
        rest /= 10;
        if rest == 0 {
            break;
        }
    }
    lines.extend_from_slice(&digits[at..]);
}

fn answer(bytes: &[u8], solve: Solve) -> Result<f64, u64> {
    let bytes: &[u8; RECORD] = bytes.try_into().map_err(|_| 23_u64)?;
    let eight = |at: usize| f64::from_le_bytes(std::array::from_fn(|i| bytes[at + i]));
    let kind = bytes[48];
    if !(1..=2).contains(&kind) || bytes[49] > 5 || bytes[50] > 2 || bytes[51..].iter().any(|spare| *spare != 0) {
        return Err(24);
    }
    let floats = [0, 8, 16, 24].map(eight);
    if !floats[0].is_finite() {
        return Err(1);
    }
    for (x, number) in floats[1..].iter().zip(2..) {
        if !(x.is_normal() && *x > 0.0) {
            return Err(number);
        }
    }
    let limit = i32::from_le_bytes(std::array::from_fn(|i| bytes[40 + i]));
    Ok(solve(floats, kind, limit))
}

/// The program, if it is built: GINTUBALOS_RELIST, or target/bin/relist of the repository.
pub fn program() -> Option<PathBuf> {
    let here = Path::new(env!("CARGO_MANIFEST_DIR")).join("../../target/bin/relist");
    Some(env::var_os("GINTUBALOS_RELIST").map_or(here, PathBuf::from)).filter(|path| path.is_file())
}

/// A folder that goes away with its owner.
struct Folder(PathBuf);

impl Drop for Folder {
    fn drop(&mut self) {
        // What can't be removed is left: there is nobody to tell.
        let _ = fs::remove_dir_all(&self.0);
    }
}

/// Seconds of each side over these records: ours, the Rust over the rules, the Rust over std. The volatilities of the
/// first two are compared.
pub fn seconds(program: &Path, markets: &[Market], turns: usize) -> io::Result<[f64; 3]> {
    let folder = Folder(env::temp_dir().join(format!("gintubalos-bench-{}", std::process::id())));
    fs::create_dir_all(&folder.0)?;
    let records = folder.0.join("records");
    fs::write(&records, markets.iter().flat_map(record).collect::<Vec<u8>>())?;
    let outputs = [0, 1, 2].map(|k| folder.0.join(format!("lines-{k}")));
    let mut best = [Duration::MAX; 3];
    for turn in 0..turns {
        for k in 0..3 {
            let k = (turn + k) % 3;
            let mut command = if k == 0 { Command::new(program) } else { Command::new(env::current_exe()?) };
            if k > 0 {
                command.args(["--list", RUST_SIDES[k - 1]]);
            }
            command.stdin(File::open(&records)?).stdout(File::create(&outputs[k])?).stderr(Stdio::inherit());
            let start = Instant::now();
            let status = command.status()?;
            best[k] = best[k].min(start.elapsed());
            if !status.success() {
                return Err(io::Error::other("a listing failed"));
            }
        }
    }
    let volatilities = |k: usize| -> io::Result<Vec<String>> {
        let text = fs::read_to_string(&outputs[k])?;
        Ok(text.lines().map(|line| line.split(' ').take(2).collect::<Vec<_>>().join(" ")).collect())
    };
    if volatilities(0)? != volatilities(1)? {
        return Err(io::Error::other("the listings differ"));
    }
    Ok(best.map(|time| time.as_secs_f64()))
}
