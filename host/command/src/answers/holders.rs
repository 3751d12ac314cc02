//! Who holds what at the end.

use super::Asked;
use crate::failure::Failure;
use crate::output::Output;
use crate::rows::Object;

/// The holder of each slot after the last change, by the number of the province.
pub fn holders(asked: &Asked<'_>, out: &mut Output<'_>) -> Result<(), Failure> {
    let chronicle = asked.chronicle()?;
    out.headings()?;
    for (province, holder) in chronicle.holders() {
        let text = holder.map_or("nobody".to_string(), |tag| tag.to_string());
        out.row(format_args!("province {province:<5} {text}"), || {
            Object::new().plain("province", province).perhaps("holder", holder)
        })?;
    }
    Ok(())
}
