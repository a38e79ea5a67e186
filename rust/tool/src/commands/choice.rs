//! Which of a file's bitmap records are to be played: --only and --skip.

use std::collections::BTreeSet;

use crate::words;

#[derive(Debug, Default, PartialEq, Eq)]
pub struct Choice {
    only: Option<BTreeSet<usize>>,
    skip: BTreeSet<usize>,
}

impl Choice {
    /// Both options' values, where they are given.
    pub fn parse(only: Option<&str>, skip: Option<&str>) -> Result<Choice, String> {
        let only = only.map(|text| numbers("--only", text)).transpose()?;
        let skip = skip.map(|text| numbers("--skip", text)).transpose()?.unwrap_or_default();
        Ok(Choice { only, skip })
    }

    /// Whether there is anything to choose by.
    pub fn is_given(&self) -> bool {
        self.only.is_some() || !self.skip.is_empty()
    }

    pub fn has(&self, number: usize) -> bool {
        self.only.as_ref().is_none_or(|only| only.contains(&number)) && !self.skip.contains(&number)
    }

    /// A number that no record has is a mistake.
    pub fn check(&self, records: usize) -> Result<(), String> {
        match self.only.iter().flatten().chain(&self.skip).find(|number| **number > records) {
            Some(number) => {
                let records = words::things(records as u64, "bitmap record");
                Err(format!("there is no record {number}: the file has {records}"))
            }
            None => Ok(()),
        }
    }
}

/// N[,N]: whole numbers from 1 on.
fn numbers(option: &str, text: &str) -> Result<BTreeSet<usize>, String> {
    let number = |part: &str| match part.trim().parse() {
        Ok(number) if number > 0 => Ok(number),
        _ => Err(format!("{option} needs numbers of records as in 2 or 1,4 (info lists them), not {text}")),
    };
    text.split(',').map(number).collect()
}

#[cfg(test)]
mod tests {
    use super::*;

    #[test]
    fn only_and_skip() {
        let chosen = |only, skip| {
            let choice = Choice::parse(only, skip).unwrap();
            (1..=5).filter(|number| choice.has(*number)).collect::<Vec<_>>()
        };
        assert_eq!(chosen(None, None), [1, 2, 3, 4, 5]);
        assert_eq!(chosen(Some("4, 2"), None), [2, 4]);
        assert_eq!(chosen(None, Some("1,5")), [2, 3, 4]);
        assert_eq!(chosen(Some("2,4"), Some("4")), [2]);
        assert!(!Choice::default().is_given());
    }

    #[test]
    fn wrong_numbers() {
        for wrong in ["", "0", "1,,2", "-1", "1-3", "two"] {
            assert!(Choice::parse(Some(wrong), None).unwrap_err().contains("--only needs numbers"));
            assert!(Choice::parse(None, Some(wrong)).unwrap_err().contains("--skip needs numbers"));
        }
        let choice = Choice::parse(Some("1,7"), None).unwrap();
        assert_eq!(choice.check(7), Ok(()));
        assert_eq!(choice.check(6).unwrap_err(), "there is no record 7: the file has 6 bitmap records");
    }
}
