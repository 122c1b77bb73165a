//! Masks: sets of replicas, one bit for each.

/// Whether the members of a mask weigh at least two thirds of all; the weights are one for each replica from 0 up.
pub fn is_quorum(mask: u16, weights: &[u16]) -> bool {
    let members = (0..).zip(weights).filter(|&(replica, _)| mask & only(replica) != 0);
    let held: u32 = members.map(|(_, &weight)| u32::from(weight)).sum();
    let total: u32 = weights.iter().map(|&weight| u32::from(weight)).sum();
    held.saturating_mul(3) >= total.saturating_mul(2)
}

/// Whether every member of a mask is one of n replicas.
pub(crate) fn is_within(mask: u16, n: u8) -> bool {
    mask.leading_zeros().saturating_add(u32::from(n)) >= u16::BITS
}

/// The mask with this one member; none if no mask can hold it.
pub(crate) fn only(replica: u8) -> u16 {
    1u16.checked_shl(u32::from(replica)).unwrap_or(0)
}
