//! What an explained write adds to each of the totals, none of which may pass the largest number.
use crate::outcome::{Listing, Refusal, Totals};

/// Adds it to all of them, or to none.
pub fn add(totals: &mut Totals, listing: &Listing) -> Result<(), Refusal> {
    let reasons = &listing.reasons[..listing.count as usize];
    let sum = |total: u32, more: usize| {
        let sum = total.checked_add(more as u32);
        sum.ok_or(Refusal::TotalFull)
    };
    let mut after = *totals;
    for (total, reason) in after.lost.iter_mut().zip(1..) {
        let lost = reasons.iter().filter(|&&given| given == reason);
        *total = sum(*total, lost.count())?;
    }
    after.writes = sum(after.writes, 1)?;
    after.lossless = sum(after.lossless, usize::from(reasons.is_empty()))?;
    *totals = after;
    Ok(())
}
