//! The command line's words, in their order, and its options.

use crate::{failure::Failure, records::is_input};
use gintubalos::{OptionType, PackedPrice, RuleSet};
use std::{
    collections::{BTreeMap, BTreeSet, VecDeque},
    ffi::OsString,
    num::NonZero,
    path::PathBuf,
    str::FromStr,
    thread,
};

/// Options that stand alone, and options with a value, as in `--limit 9` and `--limit=9`.
const FLAGS: [&str; 4] = ["--all", "--bits", "--repair", "--steps"];
const VALUES: [&str; 3] = ["--jobs", "--limit", "--rules"];

/// The words that are no options, and the options. An option begins with two hyphens, so that -1 is a number; after `--`
/// every word is one. Of an option that is given twice the last counts.
#[derive(Default)]
pub struct Arguments {
    words: VecDeque<OsString>,
    flags: BTreeSet<&'static str>,
    values: BTreeMap<&'static str, String>,
    /// The option whose value is the next word.
    wanting: Option<&'static str>,
    no_more_options: bool,
    pub help: bool,
}

/// The option that a price is asked for.
#[derive(Clone, Copy)]
pub struct Market {
    pub price: f64,
    pub forward: f64,
    pub strike: f64,
    pub expiry: f64,
    pub kind: OptionType,
}

impl Arguments {
    /// The words of a line of text, in which there are no options.
    pub fn of_line(line: &str) -> Arguments {
        let words = line.split_ascii_whitespace().map(OsString::from).collect();
        Arguments { words, ..Arguments::default() }
    }

    pub fn take(&mut self, word: OsString) -> Result<(), Failure> {
        let text = word.to_string_lossy().into_owned();
        if let Some(name) = self.wanting.take() {
            self.values.insert(name, text);
        } else if self.no_more_options || !(text.starts_with("--") || text == "-h") {
            self.words.push_back(word);
        } else {
            self.take_option(&text)?;
        }
        Ok(())
    }

    fn take_option(&mut self, text: &str) -> Result<(), Failure> {
        let (name, value) = text.split_once('=').map_or((text, None), |(name, value)| (name, Some(value)));
        let one_of = |names: &[&'static str]| names.iter().copied().find(|known| *known == name);
        match (one_of(&FLAGS), one_of(&VALUES), value) {
            (Some(flag), _, None) => {
                self.flags.insert(flag);
            }
            (_, Some(name), Some(value)) => {
                self.values.insert(name, value.to_owned());
            }
            (_, Some(name), None) => self.wanting = Some(name),
            _ if text == "--" => self.no_more_options = true,
            _ if text == "--help" || text == "-h" => self.help = true,
            (Some(flag), _, Some(_)) => return Err(Failure::usage(format!("{flag} has no value"))),
            _ => return Err(Failure::usage(format!("there is no option {text}"))),
        }
        Ok(())
    }

    pub fn flag(&mut self, name: &str) -> bool {
        self.flags.remove(name)
    }

    fn value<T: FromStr>(&mut self, name: &str, what: &str) -> Result<Option<T>, Failure> {
        let Some(text) = self.values.remove(name) else {
            return Ok(None);
        };
        text.parse().map(Some).map_err(|_| Failure::usage(format!("{name}: {text} is {what}")))
    }

    /// The limit, by default the one that the original library's public function has.
    pub fn limit(&mut self) -> Result<i32, Failure> {
        Ok(self.value("--limit", "no limit: a whole number of 32 bits")?.unwrap_or(2))
    }

    /// How many threads work, by default as many as the machine has.
    pub fn jobs(&mut self) -> Result<NonZero<usize>, Failure> {
        let jobs = self.value("--jobs", "no number of threads: a whole number from 1 on")?;
        Ok(jobs.unwrap_or_else(|| thread::available_parallelism().unwrap_or(NonZero::<usize>::MIN)))
    }

    fn word(&mut self, name: &str) -> Result<OsString, Failure> {
        self.words.pop_front().ok_or_else(|| Failure::usage(format!("{name} is missing")))
    }

    pub fn path(&mut self) -> Result<PathBuf, Failure> {
        let word = self.word("the file's name")?;
        if word.is_empty() {
            return Err(Failure::usage("the file's name is empty"));
        }
        Ok(word.into())
    }

    /// Of a book that is added to.
    pub fn path_to_add(&mut self) -> Result<PathBuf, Failure> {
        let path = self.path()?;
        if is_input(&path) {
            return Err(Failure::usage("- is standard input, to which nothing can be added: ./- is a file's name"));
        }
        Ok(path)
    }

    pub fn float(&mut self, name: &str) -> Result<f64, Failure> {
        let word = self.word(name)?;
        word.to_str().and_then(float).ok_or_else(|| {
            let word = word.to_string_lossy();
            Failure::usage(format!("{name}: {word} is neither a decimal number nor sixteen hexadecimal digits"))
        })
    }

    pub fn kind(&mut self) -> Result<OptionType, Failure> {
        let word = self.word("call or put")?;
        match word.to_string_lossy().to_ascii_lowercase().as_str() {
            "call" => Ok(OptionType::Call),
            "put" => Ok(OptionType::Put),
            other => Err(Failure::usage(format!("{other} is neither call nor put"))),
        }
    }

    pub fn market(&mut self) -> Result<Market, Failure> {
        let price = self.float("PRICE")?;
        self.market_at(price)
    }

    /// One option at a low and at a high price.
    pub fn range(&mut self) -> Result<[Market; 2], Failure> {
        let [low, high] = [self.float("LOW")?, self.float("HIGH")?];
        let market = self.market_at(low)?;
        Ok([market, Market { price: high, ..market }])
    }

    /// What comes after a price.
    fn market_at(&mut self, price: f64) -> Result<Market, Failure> {
        let forward = self.float("FORWARD")?;
        let strike = self.float("STRIKE")?;
        let expiry = self.float("EXPIRY")?;
        Ok(Market { price, forward, strike, expiry, kind: self.kind()? })
    }

    /// All that is left, one at least.
    fn all<T>(&mut self, next: impl Fn(&mut Arguments) -> Result<T, Failure>) -> Result<Vec<T>, Failure> {
        let mut all = vec![next(self)?];
        while !self.words.is_empty() {
            all.push(next(self)?);
        }
        Ok(all)
    }

    /// The files' names.
    pub fn paths(&mut self) -> Result<Vec<PathBuf>, Failure> {
        self.all(Arguments::path)
    }

    pub fn floats(&mut self, name: &str) -> Result<Vec<f64>, Failure> {
        self.all(|arguments| arguments.float(name))
    }

    pub fn packed_prices(&mut self) -> Result<Vec<PackedPrice>, Failure> {
        self.all(Arguments::packed_price)
    }

    fn packed_price(&mut self) -> Result<PackedPrice, Failure> {
        let word = self.word("HEX16")?;
        let word = word.to_string_lossy();
        word.parse().map_err(|error| Failure::usage(format!("HEX16: {word}: {error}")))
    }

    /// A record's number, from 0 on.
    pub fn record_number(&mut self) -> Result<u64, Failure> {
        let word = self.word("the record's number")?;
        let word = word.to_string_lossy();
        word.parse().map_err(|_| Failure::usage(format!("{word} is no record's number: a whole number from 0 on")))
    }

    /// The name of a board's call, or of what is done with packed prices; none where there are no words.
    pub fn call(&mut self) -> Option<String> {
        self.words.pop_front().map(|word| word.to_string_lossy().into_owned())
    }

    pub fn series(&mut self) -> Result<u32, Failure> {
        let word = self.word("SERIES")?;
        let word = word.to_string_lossy();
        word.parse().map_err(|_| Failure::usage(format!("SERIES: {word} is no whole number from 0 to 4294967295")))
    }

    /// The end of a command that has a rule set, by default the original library's. A wrong command line asks for nothing,
    /// so it comes before a rule set that there is not; that comes before all that the command does.
    pub fn end_with_rules(mut self) -> Result<RuleSet, Failure> {
        let number: Option<u32> = self.value("--rules", "no rule set's number: a whole number of 32 bits from 0 on")?;
        self.end()?;
        number.map_or(Ok(RuleSet::default()), |number| RuleSet::try_from(number).map_err(Failure::UnknownRules))
    }

    /// Nothing may be left that the command did not ask for: it would be a slip of the pen.
    pub fn end(self) -> Result<(), Failure> {
        if let Some(name) = self.wanting {
            return Err(Failure::usage(format!("{name} wants a number")));
        }
        if let Some(name) = self.flags.first().or(self.values.keys().next()) {
            return Err(Failure::usage(format!("{name} is not for this command")));
        }
        match self.words.front() {
            Some(word) => Err(Failure::usage(format!("{} is one word too many", word.to_string_lossy()))),
            None => Ok(()),
        }
    }
}

/// Sixteen hexadecimal digits, with 0x before them or without, are bits; all else is decimal.
fn float(word: &str) -> Option<f64> {
    let bare = word.strip_prefix("0x").or_else(|| word.strip_prefix("0X"));
    let digits = bare.unwrap_or(word);
    if digits.len() == 16 && digits.bytes().all(|digit| digit.is_ascii_hexdigit()) {
        return u64::from_str_radix(digits, 16).ok().map(f64::from_bits);
    }
    if bare.is_some() {
        return None;
    }
    word.parse().ok()
}

#[cfg(test)]
mod tests {
    use super::float;

    #[test]
    fn numbers() {
        let bits = |word| float(word).map(f64::to_bits);
        assert_eq!(float("0x3FF0000000000000"), Some(1.0));
        assert_eq!(float("0X3ff0000000000000"), Some(1.0));
        assert_eq!(float("4059000000000000"), Some(100.0));
        assert_eq!(bits("FFF8000000000001"), Some(0xFFF8_0000_0000_0001));
        assert_eq!(bits("-0.0"), Some(1 << 63));
        assert_eq!(float("1e-3"), Some(0.001));
        assert_eq!(float("100000000000000000"), Some(1e17));
        assert_eq!(float("-inf"), Some(f64::NEG_INFINITY));
        for word in ["", "0x", "0x1", "0x3FF00000000000000", "+FF0000000000000", "1,5", "0x+FF0000000000000"] {
            assert_eq!(float(word), None, "{word}");
        }
    }
}
