//! The words of a line.

use crate::compose::Address;

/// A word's octets, and whether it began with a quotation mark.
#[derive(Clone, Debug, PartialEq, Eq)]
pub struct Word {
    pub octets: Vec<u8>,
    pub quoted: bool,
}

impl Word {
    /// Whether it is this word, without a quotation mark.
    pub fn is(&self, bare: &str) -> bool {
        !self.quoted && self.octets == bare.as_bytes()
    }

    /// The word as it is shown in a complaint.
    fn shown(&self) -> String {
        format!("\"{}\"", self.octets.escape_ascii())
    }

    pub fn text(&self) -> String {
        String::from_utf8_lossy(&self.octets).into_owned()
    }
}

/// What is left of a line.
#[derive(Debug)]
pub struct Words {
    words: std::vec::IntoIter<Word>,
}

impl Words {
    pub fn of(line: &str) -> Result<Words, String> {
        let words = Splitter::new(line).split()?;
        Ok(Words {
            words: words.into_iter(),
        })
    }

    /// The next word, whatever it is.
    pub fn any(&mut self) -> Option<Word> {
        self.words.next()
    }

    /// The next word if it is this one, bare.
    pub fn next_if(&mut self, bare: &str) -> bool {
        let here = self.words.as_slice().first();
        let found = here.is_some_and(|word| word.is(bare));
        if found {
            self.words.next();
        }
        found
    }

    /// What stands before a bare word, and what stands behind it where there is one.
    pub fn divided_at(self, bare: &str) -> (Words, Option<Words>) {
        let mut before = self.words.as_slice().to_vec();
        let behind = before.iter().position(|word| word.is(bare)).map(|at| {
            let behind = before.split_off(at);
            behind[1..].to_vec()
        });
        let words = |words: Vec<Word>| Words {
            words: words.into_iter(),
        };
        (words(before), behind.map(words))
    }

    pub fn word(&mut self, what: &str) -> Result<Word, String> {
        self.words
            .next()
            .ok_or_else(|| format!("expected {what}, found the end of the line"))
    }

    pub fn octets(&mut self, what: &str) -> Result<Vec<u8>, String> {
        Ok(self.word(what)?.octets)
    }

    /// A number that fits into an octet.
    pub fn octet(&mut self, what: &str) -> Result<u8, String> {
        let word = self.word(what)?;
        word.text()
            .parse()
            .map_err(|_| format!("expected {what} from 0 to 255, found {}", word.shown()))
    }

    pub fn number(&mut self, what: &str) -> Result<u32, String> {
        let word = self.word(what)?;
        word.text()
            .parse()
            .map_err(|_| format!("expected {what}, found {}", word.shown()))
    }

    /// A message id of 1 to 8 hex digits.
    pub fn id(&mut self) -> Result<u32, String> {
        let what = "an id of 1 to 8 hex digits";
        let word = self.word(what)?;
        let complaint = || format!("expected {what}, found {}", word.shown());
        crate::centre::message_id(&word.octets).ok_or_else(complaint)
    }

    /// Exactly this word.
    pub fn keyword(&mut self, keyword: &str) -> Result<(), String> {
        let what = format!("\"{keyword}\"");
        let word = self.word(&what)?;
        if word.octets != keyword.as_bytes() {
            return Err(format!("expected {what}, found {}", word.shown()));
        }
        Ok(())
    }

    /// Digits alone, or ton/npi/digits.
    pub fn address(&mut self, what: &str) -> Result<Address, String> {
        let word = self.word(what)?;
        let parts: Vec<&[u8]> = word.octets.splitn(3, |&octet| octet == b'/').collect();
        match parts[..] {
            [text] => Ok(Address::new(0, 0, text)),
            [ton, npi, text] => {
                let number = |part: &[u8]| String::from_utf8_lossy(part).parse();
                match (number(ton), number(npi)) {
                    (Ok(ton), Ok(npi)) => Ok(Address::new(ton, npi, text)),
                    _ => Err(bad_address(what, &word)),
                }
            }
            _ => Err(bad_address(what, &word)),
        }
    }

    /// One of some words, by its place among them.
    pub fn one_of(&mut self, choices: &[&str]) -> Result<usize, String> {
        let what = choices.join(" or ");
        let word = self.word(&what)?;
        choices
            .iter()
            .position(|choice| choice.as_bytes() == word.octets)
            .ok_or_else(|| format!("expected {what}, found {}", word.shown()))
    }

    pub fn end(mut self) -> Result<(), String> {
        match self.any() {
            None => Ok(()),
            Some(word) => Err(format!(
                "expected the end of the line, found {}",
                word.shown()
            )),
        }
    }
}

/// A complaint about a word that isn't one of those that may stand here.
pub fn unexpected(what: &str, word: &Word) -> String {
    format!("expected {what}, found {}", word.shown())
}

fn bad_address(what: &str, word: &Word) -> String {
    format!(
        "expected {what} as digits or as ton/npi/digits, found {}",
        word.shown()
    )
}

/// Splits a line at its spaces, except between quotation marks.
struct Splitter<'a> {
    letters: std::iter::Peekable<std::str::Chars<'a>>,
}

impl<'a> Splitter<'a> {
    fn new(line: &'a str) -> Self {
        Splitter {
            letters: line.chars().peekable(),
        }
    }

    fn split(mut self) -> Result<Vec<Word>, String> {
        let mut words = Vec::new();
        while let Some(&letter) = self.letters.peek() {
            match letter {
                '#' => break,
                letter if letter.is_whitespace() => {
                    self.letters.next();
                }
                _ => words.push(self.word()?),
            }
        }
        Ok(words)
    }

    fn word(&mut self) -> Result<Word, String> {
        let mut word = Word {
            octets: Vec::new(),
            quoted: self.letters.peek() == Some(&'"'),
        };
        while let Some(letter) = self.letters.next_if(|letter| !letter.is_whitespace()) {
            match letter {
                '"' => self.quoted_part(&mut word.octets)?,
                letter => push(&mut word.octets, letter),
            }
        }
        Ok(word)
    }

    /// What stands up to the closing quotation mark.
    fn quoted_part(&mut self, octets: &mut Vec<u8>) -> Result<(), String> {
        loop {
            match self.letters.next() {
                None => return Err("expected a closing quotation mark".to_string()),
                Some('"') => return Ok(()),
                Some('\\') => octets.push(self.escape()?),
                Some(letter) => push(octets, letter),
            }
        }
    }

    /// \" and \\ and \x with two hex digits.
    fn escape(&mut self) -> Result<u8, String> {
        match self.letters.next() {
            Some('"') => Ok(b'"'),
            Some('\\') => Ok(b'\\'),
            Some('x') => {
                let mut digit = || self.letters.next().and_then(|letter| letter.to_digit(16));
                match (digit(), digit()) {
                    (Some(high), Some(low)) => Ok((high << 4 | low) as u8),
                    _ => Err("expected two hex digits behind \\x".to_string()),
                }
            }
            _ => Err("expected \\\", \\\\ or \\x and two hex digits".to_string()),
        }
    }
}

fn push(octets: &mut Vec<u8>, letter: char) {
    octets.extend_from_slice(letter.encode_utf8(&mut [0; 4]).as_bytes());
}

#[cfg(test)]
mod tests {
    use super::*;

    fn split(line: &str) -> Result<Vec<(String, bool)>, String> {
        let words = Splitter::new(line).split()?;
        Ok(words.iter().map(|w| (w.text(), w.quoted)).collect())
    }

    #[test]
    fn words_and_quotation_marks() {
        let word = |text: &str, quoted| (text.to_string(), quoted);
        assert_eq!(
            split(r#"a  "b c" 1/1/" 5" "" # d"#),
            Ok(vec![
                word("a", false),
                word("b c", true),
                word("1/1/ 5", false),
                word("", true)
            ])
        );
        assert_eq!(split(r#""\"\\\x41""#), Ok(vec![word("\"\\A", true)]));
        assert_eq!(split("# only"), Ok(vec![]));
        assert!(split("\"a").unwrap_err().contains("closing"));
        assert!(split(r#""\x4""#).unwrap_err().contains("hex digits"));
        assert!(split(r#""\n""#).unwrap_err().contains("\\x"));
    }
}
