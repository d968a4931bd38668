//! Where the two differ, in words that lead back to the input.

use second::text;
use std::fmt;

/// One thing that the two answer differently.
#[derive(Debug)]
pub struct Difference {
    /// The call and its input, in the words of the second program's command line where it has them.
    pub given: String,
    pub what: &'static str,
    pub second: String,
    pub proved: String,
}

impl fmt::Display for Difference {
    fn fmt(&self, to: &mut fmt::Formatter) -> fmt::Result {
        writeln!(to, "the two differ in {}", self.what)?;
        writeln!(to, "  given:              {}", self.given)?;
        writeln!(to, "  the second program: {}", self.second)?;
        write!(to, "  the proved library: {}", self.proved)
    }
}

/// Compares what the two answer for one input. The input is put into words only where they differ.
pub struct Comparing<'a> {
    pub given: &'a dyn Fn() -> String,
}

impl Comparing<'_> {
    pub fn same<T>(&self, what: &'static str, second: T, proved: T) -> Result<(), Difference>
    where
        T: PartialEq + fmt::Debug,
    {
        if second == proved {
            return Ok(());
        }
        Err(Difference {
            given: (self.given)(),
            what,
            second: format!("{second:?}"),
            proved: format!("{proved:?}"),
        })
    }
}

/// Bytes that are shown in hexadecimal.
#[derive(PartialEq)]
pub struct Bytes<'a>(pub &'a [u8]);

impl fmt::Debug for Bytes<'_> {
    fn fmt(&self, to: &mut fmt::Formatter) -> fmt::Result {
        to.write_str(&text::hex(self.0))
    }
}
