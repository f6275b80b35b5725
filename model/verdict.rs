//! The verdict: all judges of document 01 over one message. "Judges answer a reading fault first,
//! then 20, 21, 22, then fields."

use crate::fields;
use crate::structure::{self, Misfit};

/// Why a message is refused: a reading fault or one of its structure, or one of a field.
pub enum Fault {
    OfStructure(Misfit),
    OfField(fields::Fault),
}

/// A message is accepted where no judge has found a fault.
pub fn judge(message: &[u8]) -> Result<(), Fault> {
    structure::judge(message).map_err(Fault::OfStructure)?;
    fields::judge(message).map_err(Fault::OfField)
}
