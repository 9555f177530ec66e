//! A refusal and its words.

use std::error::Error;
use std::fmt;

/// Why a call refused: one of the numbers 1 to 9 of document 01.
#[derive(Clone, Copy, Debug, PartialEq, Eq, Hash)]
pub struct Refusal {
    number: u8,
}

impl Refusal {
    /// A call's number as a result: 0 is done.
    pub fn check(number: u8) -> Result<(), Refusal> {
        match number {
            0 => Ok(()),
            number => Err(Refusal { number }),
        }
    }

    pub fn number(self) -> u8 {
        self.number
    }

    /// What document 01's table says of the number.
    pub fn words(self) -> &'static str {
        match self.number {
            1 => "a record is cut, its mark unknown, a spare not 0, or bytes follow the last layer",
            2 => "a field or bias outside its range",
            3 => {
                "file too long, kernel too big, shapes of an add differ, tensor j not there yet, \
                 a tensor or all tensors too big"
            }
            4 => "sum store or area shorter than needed (longer is allowed; the rest stays)",
            5 => {
                "a band not 0,0 for a tensor that the network lacks; first > end; end > rows; \
                 empty but not 0,0"
            }
            6 => "a stored sum above 255N",
            7 => {
                "layer number not 1..n; no rows, or rows beyond the picture; \
                 rows or reading slice of the wrong length"
            }
            8 => "a reading while any band is not empty",
            9 => {
                "replacement differs in length, or in bytes 0–6 (convolution), 0–3 (full), 0–2 (add); \
                 or has a field, bias or spare out of range"
            }
            _ => "a number that document 01 does not have",
        }
    }
}

impl fmt::Display for Refusal {
    fn fmt(&self, f: &mut fmt::Formatter<'_>) -> fmt::Result {
        write!(f, "refused {}: {}", self.number, self.words())
    }
}

impl Error for Refusal {}
