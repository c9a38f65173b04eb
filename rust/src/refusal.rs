//! Refusals: the number of the first fault, and its place.

use crate::numbers::{REFUSED_ASK, REFUSED_CHECK, REFUSED_EMPTY, REFUSED_FIELD, REFUSED_FIT, REFUSED_KIND};
use crate::numbers::{REFUSED_LAYOUT, REFUSED_LIMIT, REFUSED_SIZE, REFUSED_TABLE, REFUSED_WIDTH};
use std::fmt;

/// The first fault of what a call was given. It prints as one sentence: what is wrong, where, and what to do.
#[derive(Clone, Copy, Debug, PartialEq, Eq, Hash)]
pub struct Refusal {
    /// Which fault: one of [`numbers`](crate::numbers), `REFUSED_SIZE` to `REFUSED_EMPTY`.
    pub number: u64,
    /// Where: the number of a block, a word or a rule; else 0.
    pub place: u64,
}

impl Refusal {
    /// The name of the fault, as `SIZE`.
    pub fn name(&self) -> &'static str {
        match self.number {
            REFUSED_SIZE => "SIZE",
            REFUSED_CHECK => "CHECK",
            REFUSED_LAYOUT => "LAYOUT",
            REFUSED_WIDTH => "WIDTH",
            REFUSED_TABLE => "TABLE",
            REFUSED_KIND => "KIND",
            REFUSED_FIELD => "FIELD",
            REFUSED_FIT => "FIT",
            REFUSED_LIMIT => "LIMIT",
            REFUSED_ASK => "ASK",
            REFUSED_EMPTY => "EMPTY",
            _ => "unknown",
        }
    }

    /// What the place counts: "block", "word" or "rule". None where a refusal has no place, which is then 0.
    pub fn counted(&self) -> Option<&'static str> {
        match self.number {
            REFUSED_CHECK | REFUSED_LAYOUT => Some("block"),
            REFUSED_WIDTH | REFUSED_TABLE => Some("word"),
            REFUSED_KIND | REFUSED_FIELD | REFUSED_FIT => Some("rule"),
            _ => None,
        }
    }

    /// What is wrong, and what to do: the text that the C header has for this number.
    pub fn text(&self) -> &'static str {
        match self.number {
            REFUSED_SIZE => {
                "over 32 words or 252 rules, a record cut short, a file not of 1 to 7 blocks, or a short buffer; split it, give the whole file, or lend more"
            }
            REFUSED_CHECK => "the block's sum is wrong; fetch the file again, or write it anew",
            REFUSED_LAYOUT => {
                "the block cannot stand there; look at its kind, edition, number, record count and zeros, or write the file anew"
            }
            REFUSED_WIDTH => "the word's width is not 1 to 64; give the register's width",
            REFUSED_TABLE => {
                "the word's lo has a 1 where hi has 0, or a bound has a 1 at or above the width; look at what the board fixes"
            }
            REFUSED_KIND => "the rule's kind is not 1 to 14; use the number of a kind",
            REFUSED_FIELD => {
                "the rule names a word that is not there, or sets a field that its kind does not use; name a word, or clear the field"
            }
            REFUSED_FIT => "the rule's widths, or the k of a SLICE, do not fit; compare the widths with what its kind asks for",
            REFUSED_LIMIT => "the limit is over 1000000; give a smaller one",
            REFUSED_ASK => "no such rule, a place that its kind does not use, or a bit not below the width or not open; ask for an open bit",
            REFUSED_EMPTY => "a cause without any rule, which is proved never to come; report it with the problem",
            _ => "no such refusal; build the library and what calls it from the same sources",
        }
    }
}

impl fmt::Display for Refusal {
    fn fmt(&self, f: &mut fmt::Formatter<'_>) -> fmt::Result {
        write!(f, "refused, {} {}", self.number, self.name())?;
        if let Some(counted) = self.counted() {
            write!(f, ", {counted} {}", self.place)?;
        }
        write!(f, ": {}", self.text())
    }
}

impl std::error::Error for Refusal {}

#[cfg(test)]
mod tests {
    use super::*;

    fn said(number: u64, place: u64) -> String {
        Refusal { number, place }.to_string()
    }

    #[test]
    fn sentences_say_what_and_where_and_what_to_do() {
        assert_eq!(said(REFUSED_CHECK, 3), "refused, 2 CHECK, block 3: the block's sum is wrong; fetch the file again, or write it anew");
        assert_eq!(said(REFUSED_WIDTH, 31), "refused, 4 WIDTH, word 31: the word's width is not 1 to 64; give the register's width");
        assert_eq!(said(REFUSED_KIND, 251), "refused, 6 KIND, rule 251: the rule's kind is not 1 to 14; use the number of a kind");
        assert_eq!(said(REFUSED_LIMIT, 0), "refused, 9 LIMIT: the limit is over 1000000; give a smaller one");
    }

    #[test]
    fn every_refusal_has_its_own_sentence_with_its_place() {
        let places = ["", ", block 5", ", block 5", ", word 5", ", word 5", ", rule 5", ", rule 5", ", rule 5", "", "", ""];
        let names = ["SIZE", "CHECK", "LAYOUT", "WIDTH", "TABLE", "KIND", "FIELD", "FIT", "LIMIT", "ASK", "EMPTY"];
        let mut sentences = std::collections::HashSet::new();
        for (number, (place, name)) in (1..).zip(places.into_iter().zip(names)) {
            let refusal = Refusal { number, place: 5 };
            assert_eq!(refusal.to_string(), format!("refused, {number} {name}{place}: {}", refusal.text()));
            assert!(refusal.text().contains("; "), "{name} does not say what to do");
            assert!(sentences.insert(refusal.text()), "{name} says what another refusal says");
        }
        assert_eq!(sentences.len(), 11);
    }

    /// A caller can make such a refusal, and it must print all the same.
    #[test]
    fn a_number_that_is_no_refusals_prints() {
        let wanted = "refused, 12 unknown: no such refusal; build the library and what calls it from the same sources";
        assert_eq!(said(12, 7), wanted);
    }

    #[test]
    fn a_refusal_is_an_error() {
        let error: Box<dyn std::error::Error + Send + Sync> = Box::new(Refusal { number: REFUSED_FIT, place: 2 });
        assert!(error.to_string().starts_with("refused, 8 FIT, rule 2: the rule's widths"));
    }
}
