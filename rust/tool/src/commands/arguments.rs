//! Options and file names out of a command's arguments.

use std::ffi::{OsStr, OsString};
use std::os::unix::ffi::OsStrExt;
use std::path::PathBuf;

use face::Clip;

/// What one command knows.
pub struct Known {
    pub command: &'static str,
    /// Options with a value behind them.
    pub valued: &'static [&'static str],
    pub flags: &'static [&'static str],
}

pub struct Arguments {
    /// File names, in order.
    pub plain: Vec<PathBuf>,
    pub help: bool,
    options: Vec<(&'static str, OsString)>,
}

impl Known {
    /// An error of use, with where to read more.
    pub fn wrong(&self, words: &str) -> String {
        format!("{words}; see lacrumont {} --help", self.command)
    }

    pub fn parse(&self, arguments: &[OsString]) -> Result<Arguments, String> {
        let mut parsed = Arguments { plain: Vec::new(), help: false, options: Vec::new() };
        let mut left = arguments.iter();
        while let Some(argument) = left.next() {
            let text = argument.to_string_lossy();
            if text == "--help" || text == "-h" {
                parsed.help = true;
            } else if text == "--" {
                // All that follows are names, were they to begin with a dash.
                parsed.plain.extend(left.by_ref().map(PathBuf::from));
            } else if text == "-" || !text.starts_with('-') {
                parsed.plain.push(PathBuf::from(argument));
            } else if let Some(&flag) = self.flags.iter().find(|flag| **flag == text) {
                self.add(&mut parsed, flag, OsString::new())?;
            } else if let Some(&option) = self.valued.iter().find(|option| **option == text) {
                let value = left.next().ok_or_else(|| self.wrong(&format!("{option} needs a value behind it")))?;
                self.add(&mut parsed, option, value.clone())?;
            } else if let Some((option, value)) = self.joined(argument) {
                self.add(&mut parsed, option, value)?;
            } else {
                return Err(self.wrong(&format!("there is no option {text}")));
            }
        }
        Ok(parsed)
    }

    /// An option and its value in one, as in --clip=0,0,9,9.
    fn joined(&self, argument: &OsStr) -> Option<(&'static str, OsString)> {
        // A value need not be Unicode.
        let bytes = argument.as_bytes();
        let (name, value) = bytes.split_at(bytes.iter().position(|byte| *byte == b'=')?);
        let option = self.valued.iter().find(|option| option.as_bytes() == name && name.starts_with(b"--"))?;
        Some((option, OsStr::from_bytes(&value[1..]).into()))
    }

    fn add(&self, parsed: &mut Arguments, option: &'static str, value: OsString) -> Result<(), String> {
        if parsed.has(option) {
            return Err(self.wrong(&format!("{option} is given twice")));
        }
        parsed.options.push((option, value));
        Ok(())
    }
}

impl Arguments {
    pub fn has(&self, option: &str) -> bool {
        self.value(option).is_some()
    }

    pub fn path(&self, option: &str) -> Option<PathBuf> {
        self.value(option).map(PathBuf::from)
    }

    /// The value as text; what is not text is no number either, and is told so where it is parsed.
    pub fn text(&self, option: &str) -> Option<String> {
        self.value(option).map(|value| value.to_string_lossy().into_owned())
    }

    fn value(&self, option: &str) -> Option<&OsString> {
        self.options.iter().find(|(name, _)| *name == option).map(|(_, value)| value)
    }
}

/// L,T,R,B: four whole numbers.
pub fn clip(text: &str) -> Result<Clip, String> {
    let wrong = || format!("--clip needs four whole numbers as in 0,0,640,480, not {text}");
    let numbers: Vec<i32> =
        text.split(',').map(|number| number.trim().parse().map_err(|_| wrong())).collect::<Result<_, String>>()?;
    match numbers[..] {
        [left, top, right, bottom] => Ok(Clip { left, top, right, bottom }),
        _ => Err(wrong()),
    }
}

/// RRGGBB: six hexadecimal digits.
pub fn brush(text: &str) -> Result<u32, String> {
    let digits = text.strip_prefix('#').unwrap_or(text);
    if digits.len() == 6 && digits.bytes().all(|digit| digit.is_ascii_hexdigit()) {
        if let Ok(brush) = u32::from_str_radix(digits, 16) {
            return Ok(brush);
        }
    }
    Err(format!("--brush needs six hexadecimal digits as in 3060C0, not {text}"))
}

#[cfg(test)]
mod tests {
    use super::*;

    const KNOWN: Known = Known { command: "play", valued: &["-o", "--clip"], flags: &["--force"] };

    fn parse(text: &str) -> Result<Arguments, String> {
        KNOWN.parse(&text.split_whitespace().map(OsString::from).collect::<Vec<_>>())
    }

    #[test]
    fn names_and_options() {
        let parsed = parse("a.png --clip -1,0,5,6 b.emf -o -x.png --force -- -c.emf --force").unwrap();
        assert_eq!(parsed.plain, ["a.png", "b.emf", "-c.emf", "--force"].map(PathBuf::from));
        assert_eq!(parsed.text("--clip").as_deref(), Some("-1,0,5,6"));
        assert_eq!(parsed.path("-o"), Some(PathBuf::from("-x.png")));
        assert!(parsed.has("--force") && !parsed.help);
        assert_eq!(parse("--clip=1,2,3,4").unwrap().text("--clip").as_deref(), Some("1,2,3,4"));
        assert!(parse("-h").unwrap().help);
    }

    #[test]
    fn wrong_use() {
        let says = |text| parse(text).err().unwrap();
        assert_eq!(says("a -o"), "-o needs a value behind it; see lacrumont play --help");
        assert!(says("--force --force").contains("--force is given twice"));
        assert!(says("--colour 5").contains("there is no option --colour"));
        assert!(says("--force=1").contains("there is no option"));
        assert!(says("-o=1").contains("there is no option"));
    }

    #[test]
    fn clips_and_brushes() {
        assert_eq!(clip("-3, 4,5,2147483647"), Ok(Clip { left: -3, top: 4, right: 5, bottom: i32::MAX }));
        for wrong in ["", "1,2,3", "1,2,3,4,5", "1,2,3,x", "1,2,3,2147483648"] {
            assert!(clip(wrong).is_err());
        }
        assert_eq!(brush("#3060c0"), Ok(0x3060C0));
        for wrong in ["", "12345", "1234567", "12345g", "+12345", "blue", "ééé"] {
            assert!(brush(wrong).is_err());
        }
    }
}
