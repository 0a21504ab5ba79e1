//! The names of lines that become labels.

use std::fmt;

/// One of the seven names that become labels of a message's tree.
///
/// ```
/// use tquery::Name;
///
/// assert_eq!((Name::Dbl.as_str(), Name::Dbl.label()), ("DBL", 2));
/// assert_eq!(Name::of(b"DO"), Some(Name::Do));
/// assert_eq!(Name::of(b"DOX"), None);
/// ```
#[derive(Clone, Copy, Debug, PartialEq, Eq, Hash)]
pub enum Name {
    /// `JOB`, label 1: the job. A number is text here.
    Job,
    /// `DBL`, label 2: the distance between the lenses.
    Dbl,
    /// `HBOX`, label 3: the width of the box around a lens.
    Hbox,
    /// `VBOX`, label 4: its height.
    Vbox,
    /// `FED`, label 5: the effective diameter of the frame.
    Fed,
    /// `IPD`, label 6: the pupillary distance.
    Ipd,
    /// `DO`, label 7: which lenses are to be made.
    Do,
}

impl Name {
    /// All of them, label 1 first.
    pub const ALL: [Name; 7] = [Name::Job, Name::Dbl, Name::Hbox, Name::Vbox, Name::Fed, Name::Ipd, Name::Do];

    /// The name as it stands in a line.
    pub fn as_str(self) -> &'static str {
        match self {
            Name::Job => "JOB",
            Name::Dbl => "DBL",
            Name::Hbox => "HBOX",
            Name::Vbox => "VBOX",
            Name::Fed => "FED",
            Name::Ipd => "IPD",
            Name::Do => "DO",
        }
    }

    /// The label, from 1 to 7.
    pub fn label(self) -> u8 {
        match self {
            Name::Job => 1,
            Name::Dbl => 2,
            Name::Hbox => 3,
            Name::Vbox => 4,
            Name::Fed => 5,
            Name::Ipd => 6,
            Name::Do => 7,
        }
    }

    /// Which of the seven a line's whole name is, or nothing if it is another.
    pub fn of(name: &[u8]) -> Option<Name> {
        Name::ALL.into_iter().find(|one| one.as_str().as_bytes() == name)
    }
}

impl fmt::Display for Name {
    fn fmt(&self, out: &mut fmt::Formatter<'_>) -> fmt::Result {
        out.write_str(self.as_str())
    }
}
