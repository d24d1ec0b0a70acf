//! The fifteen rules and the eight refusals, with their numbers.

use std::fmt;

/// What a breach breaks; the numbers are 1 to 15 in this order.
#[derive(Debug, Clone, Copy, PartialEq, Eq, PartialOrd, Ord, Hash)]
pub enum Rule {
    /// 1: a function is diverted to.
    FunctionDivertedTo = 1,
    /// 2: a divert's target is not found.
    TargetNotFound,
    /// 3: a flow that is not a function is called.
    FlowCalled,
    /// 4: a name is a function's.
    NameOfFunction,
    /// 5: a name is a global's.
    NameOfGlobal,
    /// 6: a temp is a parameter.
    TempIsParameter,
    /// 7: a temp is a label.
    TempIsLabel,
    /// 8: a target is a parameter without divert mark.
    UnmarkedParameter,
    /// 9: an argument is directly a divert target of a divert parameter.
    MarkedArgument,
    /// 10: a gather label was already seen in the same body.
    RepeatedGather,
    /// 11: a choice directly in a branch does not end with a divert.
    ChoiceWithoutDivert,
    /// 12: a function has stitches.
    FunctionWithStitches,
    /// 13: a function has a choice.
    FunctionWithChoice,
    /// 14: a function has a divert other than END or DONE.
    FunctionWithDivert,
    /// 15: a stitch reads a variable of its knot.
    ForbiddenVariable,
}

impl Rule {
    /// All rules in the order of their numbers.
    pub const ALL: [Rule; 15] = [
        Rule::FunctionDivertedTo,
        Rule::TargetNotFound,
        Rule::FlowCalled,
        Rule::NameOfFunction,
        Rule::NameOfGlobal,
        Rule::TempIsParameter,
        Rule::TempIsLabel,
        Rule::UnmarkedParameter,
        Rule::MarkedArgument,
        Rule::RepeatedGather,
        Rule::ChoiceWithoutDivert,
        Rule::FunctionWithStitches,
        Rule::FunctionWithChoice,
        Rule::FunctionWithDivert,
        Rule::ForbiddenVariable,
    ];

    /// The rule's number, 1 to 15.
    pub fn number(self) -> u8 {
        self as u8
    }

    /// The rule of a number.
    pub fn from_number(number: u32) -> Option<Rule> {
        Rule::ALL
            .into_iter()
            .find(|rule| u32::from(rule.number()) == number)
    }
}

/// Why a call was refused; the numbers are 1 to 8 in this order.
#[non_exhaustive]
#[derive(Debug, Clone, Copy, PartialEq, Eq, PartialOrd, Ord, Hash)]
pub enum Refusal {
    /// 1: the file is too short or too long.
    Length = 1,
    /// 2: the last four bytes are not the mark.
    Mark,
    /// 3: the section starts are out of order.
    Starts,
    /// 4: something runs past its container, or bytes are left over.
    Bounds,
    /// 5: a kind, flag or mode has no meaning.
    Meaning,
    /// 6: records nest deeper than 64.
    Depth,
    /// 7: the lent index is too short.
    Index,
    /// 8: the lent message buffer is too short.
    Message,
}

impl Refusal {
    /// All refusals in the order of their numbers.
    pub const ALL: [Refusal; 8] = [
        Refusal::Length,
        Refusal::Mark,
        Refusal::Starts,
        Refusal::Bounds,
        Refusal::Meaning,
        Refusal::Depth,
        Refusal::Index,
        Refusal::Message,
    ];

    /// The refusal's number, 1 to 8.
    pub fn number(self) -> u8 {
        self as u8
    }

    /// The refusal of a number.
    pub fn from_number(number: u32) -> Option<Refusal> {
        Refusal::ALL
            .into_iter()
            .find(|refusal| u32::from(refusal.number()) == number)
    }
}

impl fmt::Display for Refusal {
    /// The reason in words.
    fn fmt(&self, f: &mut fmt::Formatter<'_>) -> fmt::Result {
        f.write_str(match self {
            Refusal::Length => "the file has under 20 or over 1048576 bytes",
            Refusal::Mark => "the last four bytes are not the mark 49 4B 01 00",
            Refusal::Starts => {
                "the section starts in the trailer do not begin at 0, fall, or pass the trailer"
            }
            Refusal::Bounds => {
                "a field or piece runs past its container, or a container has bytes left over"
            }
            Refusal::Meaning => "a kind, flag or mode has no meaning",
            Refusal::Depth => "records nest deeper than 64",
            Refusal::Index => "the lent index has fewer than 3 x (length - 20) numbers",
            Refusal::Message => "the lent message buffer has fewer than 640 bytes",
        })
    }
}

impl std::error::Error for Refusal {}

#[cfg(test)]
mod tests {
    use super::*;

    #[test]
    fn numbers_count_from_one_and_come_back() {
        for (number, rule) in (1..).zip(Rule::ALL) {
            assert_eq!(rule.number(), number);
            assert_eq!(Rule::from_number(number.into()), Some(rule));
        }
        for (number, refusal) in (1..).zip(Refusal::ALL) {
            assert_eq!(refusal.number(), number);
            assert_eq!(Refusal::from_number(number.into()), Some(refusal));
        }
    }

    #[test]
    fn other_numbers_have_no_meaning() {
        assert_eq!(Rule::from_number(0), None);
        assert_eq!(Rule::from_number(16), None);
        assert_eq!(Rule::from_number(257), None);
        assert_eq!(Refusal::from_number(0), None);
        assert_eq!(Refusal::from_number(9), None);
    }

    #[test]
    fn every_refusal_says_its_reason_in_one_line() {
        for refusal in Refusal::ALL {
            let reason = refusal.to_string();
            assert!(!reason.is_empty() && !reason.contains('\n'));
        }
    }
}
