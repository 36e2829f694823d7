//! What `--help` says, of all commands or of one.

use std::io::{self, Write};

const TEXT: &str = include_str!("help.txt");

/// Of one command, if it is one's name, else of all.
pub fn write(out: &mut impl Write, name: &str) -> io::Result<()> {
    let ends = [' ', '\n'].map(|end| TEXT.find(&format!("\n  gintubalos {name}{end}")));
    let Some(at) = ends.into_iter().flatten().next() else {
        return out.write_all(TEXT.as_bytes());
    };
    let commands_end = TEXT.find("\n\nEXPIRY").expect("what all commands share comes after them");
    let end = TEXT[at + 1..commands_end].find("\n  gintubalos ").map_or(commands_end, |length| at + 1 + length);
    write!(out, "{}{}", &TEXT[at + 1..end], &TEXT[commands_end..])
}

#[cfg(test)]
mod tests {
    use super::TEXT;
    use crate::failure::{IO_ERROR, USAGE};
    use gintubalos::Refusal;

    #[test]
    fn every_number() {
        let text = TEXT.split_whitespace().collect::<Vec<_>>().join(" ");
        for number in Refusal::NUMBERS {
            let words = format!(" {number} {}", Refusal { number, steps: 0 }.meaning());
            assert!(text.contains(&words), "{words}");
        }
        assert!(text.contains(&format!("{USAGE} a wrong command line")));
        assert!(text.contains(&format!("{IO_ERROR} a file or an output")));
        assert!(TEXT.lines().all(|line| line.chars().count() <= 82));
    }
}
