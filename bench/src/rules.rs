// The rulebook: refusals, and below them the sets, the tables and the sheet texts.

pub mod sets;
pub mod table;
pub mod text;

/// Why a call is refused: the refusal's number, one value of it, and the line of the text (0 if there is none).
#[derive(Clone, Copy, Debug, PartialEq, Eq)]
pub struct Refusal {
    pub number: u8,
    pub value: usize,
    pub line: usize,
}

impl Refusal {
    pub fn new(number: u8, value: usize) -> Refusal {
        Refusal { number, value, line: 0 }
    }

    pub fn at(self, line: usize) -> Refusal {
        Refusal { line, ..self }
    }
}
