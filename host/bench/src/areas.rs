//! The areas that a call writes.

#[derive(PartialEq)]
pub struct Areas {
    pub work: Vec<u8>,
    pub result: Vec<u8>,
    pub positions: Vec<u16>,
}

impl Areas {
    /// Areas just long enough for every run, full of one value.
    pub fn full_of(value: u8) -> Areas {
        Areas { work: vec![value; 65536], result: vec![value; 16384], positions: vec![value.into(); 2730] }
    }
}
