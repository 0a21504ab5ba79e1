//! Why the engine refuses a call.

use std::error::Error;
use std::fmt;

/// Why the engine refused a call: the ten causes of document 01's table, and
/// numbers 11 to 13 of document 02.
///
/// A run tests them in the order of their numbers, but 11 between 1 and 2, and
/// 12 before 8. From 8 on they come of the run itself: there the first stretch
/// with a fault decides, which is the stages before the first group or a group
/// with the stages up to the next, and 9 counts to the stretch that yields the
/// array. What is said of the result area holds of the position area too. The
/// words of `Display` are the table's. A regrouping has other causes for some
/// of the numbers, which [`Refusal::regroup_words`] says. 13 comes of a tracer's
/// message alone, before 10, and no other number comes of one.
#[derive(Clone, Copy, Debug, PartialEq, Eq, Hash)]
#[non_exhaustive]
pub enum Refusal {
    /// 1: the work area has under 65,536 bytes. All areas are as they were.
    WorkShort,
    /// 2: the query has over 4,096 bytes. The result area is as it was.
    QueryLong,
    /// 3: the query is not the byte form of any query; or, of a regrouping, it
    /// is not one group alone, without a total, whose destinations are single,
    /// distinct labels. The result area is as it was.
    QueryMalformed,
    /// 4: the input, or an array that is regrouped, has over 16,384 bytes. The
    /// result area is as it was.
    InputLong,
    /// 5: the input, or an array that is regrouped, is not the byte form of any
    /// array, or a tree in it is too large. The result area is as it was.
    InputMalformed,
    /// 6: the joined array has over 16,384 bytes. The result area is as it was.
    JoinedLong,
    /// 7: the joined array is not the byte form of any array, or a tree in it
    /// is too large. The result area is as it was.
    JoinedMalformed,
    /// 8: a tree passed 2,048 bytes or depth 16 in a stretch. The result area is all zero.
    TreeLarge,
    /// 9: an array that enters a group, or two arrays that are regrouped, joined,
    /// have over 16,384 bytes. The result area is all zero.
    GroupLong,
    /// 10: the last array has over 16,384 bytes, or more than the result area;
    /// or the array of a tracer's message has. The result area is all zero.
    ResultLong,
    /// 11: the position area has under 2,730 entries. All areas are as they
    /// were. It does not come of a regrouping, which takes no position area.
    PositionsShort,
    /// 12: the total of some class of a group does not fit a signed 64-bit
    /// integer. It is tested where the group begins, after 9 of the array that
    /// enters it and before 8 of any tree that it makes. The result area is all
    /// zero. It does not come of a regrouping, which takes no total.
    TotalLarge,
    /// 13: a tracer's message has over 4,096 bytes, one of its lines is out of
    /// form, or one of the seven names has two lines. The result area is as it
    /// was. Which line it is, [`Message::of_bytes`](crate::Message::of_bytes)
    /// says.
    MessageMalformed,
    /// A number that is in neither document's table. The engine that this crate
    /// was written for never gives one; a later engine may.
    Unlisted(u32),
}

impl Refusal {
    /// All of them, number 1 first.
    pub const ALL: [Refusal; 13] = [
        Refusal::WorkShort,
        Refusal::QueryLong,
        Refusal::QueryMalformed,
        Refusal::InputLong,
        Refusal::InputMalformed,
        Refusal::JoinedLong,
        Refusal::JoinedMalformed,
        Refusal::TreeLarge,
        Refusal::GroupLong,
        Refusal::ResultLong,
        Refusal::PositionsShort,
        Refusal::TotalLarge,
        Refusal::MessageMalformed,
    ];

    /// The documents' number of this refusal.
    pub fn number(self) -> u32 {
        match self {
            Refusal::WorkShort => 1,
            Refusal::QueryLong => 2,
            Refusal::QueryMalformed => 3,
            Refusal::InputLong => 4,
            Refusal::InputMalformed => 5,
            Refusal::JoinedLong => 6,
            Refusal::JoinedMalformed => 7,
            Refusal::TreeLarge => 8,
            Refusal::GroupLong => 9,
            Refusal::ResultLong => 10,
            Refusal::PositionsShort => 11,
            Refusal::TotalLarge => 12,
            Refusal::MessageMalformed => 13,
            Refusal::Unlisted(number) => number,
        }
    }

    /// The cause in words, as the table has it, without the number.
    pub fn words(self) -> &'static str {
        match self {
            Refusal::WorkShort => "work area under 65,536 bytes",
            Refusal::QueryLong => "query over 4,096 bytes",
            Refusal::QueryMalformed => "query malformed",
            Refusal::InputLong => "input over 16,384 bytes",
            Refusal::InputMalformed => "input malformed, tree limits included",
            Refusal::JoinedLong => "joined array over 16,384 bytes",
            Refusal::JoinedMalformed => "joined array malformed, tree limits included",
            Refusal::TreeLarge => "tree too large in a stretch",
            Refusal::GroupLong => "array entering a group over 16,384 bytes",
            Refusal::ResultLong => "final array over 16,384 bytes or over the result area",
            Refusal::PositionsShort => "position area under 2,730 entries",
            Refusal::TotalLarge => "a total does not fit a signed 64-bit integer",
            Refusal::MessageMalformed => {
                "message over 4,096 bytes, a line out of form, or one of the seven names twice"
            }
            Refusal::Unlisted(_) => "a cause that this crate does not know",
        }
    }

    /// The cause in words where [`Engine::regroup`](crate::Engine::regroup) refused.
    ///
    /// ```
    /// use tquery::Refusal;
    ///
    /// let words = "the two arrays joined over 16,384 bytes";
    /// assert_eq!(Refusal::GroupLong.regroup_words(), words);
    /// assert_eq!(Refusal::QueryLong.regroup_words(), Refusal::QueryLong.words());
    /// ```
    pub fn regroup_words(self) -> &'static str {
        match self {
            Refusal::QueryMalformed => {
                "query malformed, or not one group alone, without a total, with single, distinct destinations"
            }
            Refusal::InputLong => "first or second array over 16,384 bytes",
            Refusal::InputMalformed => "first or second array malformed, tree limits included",
            Refusal::TreeLarge => "tree too large in the regrouping",
            Refusal::GroupLong => "the two arrays joined over 16,384 bytes",
            other => other.words(),
        }
    }

    /// The refusal of a number other than 0.
    fn from_number(number: u32) -> Refusal {
        Refusal::ALL
            .into_iter()
            .find(|refusal| refusal.number() == number)
            .unwrap_or(Refusal::Unlisted(number))
    }
}

impl fmt::Display for Refusal {
    fn fmt(&self, out: &mut fmt::Formatter<'_>) -> fmt::Result {
        write!(out, "refused {}: {}", self.number(), self.words())
    }
}

impl Error for Refusal {}

/// Takes an answer of the engine apart: the number above 32 bits, the length below.
pub(crate) fn length_of(answer: u64) -> Result<usize, Refusal> {
    let (number, length) = ((answer >> 32) as u32, answer as u32);
    match number {
        0 => Ok(length as usize),
        _ => Err(Refusal::from_number(number)),
    }
}

#[cfg(test)]
mod tests {
    use super::*;

    #[test]
    fn an_answer_is_a_number_and_a_length() {
        assert_eq!(length_of(30), Ok(30));
        for (number, refusal) in (1u32..).zip(Refusal::ALL) {
            assert_eq!(refusal.number(), number);
            assert_eq!(length_of(u64::from(number) << 32), Err(refusal));
        }
    }

    #[test]
    fn a_number_of_a_later_engine_has_words_too() {
        assert_eq!(length_of(99 << 32), Err(Refusal::Unlisted(99)));
        assert_eq!(Refusal::Unlisted(99).to_string(), "refused 99: a cause that this crate does not know");
    }
}
