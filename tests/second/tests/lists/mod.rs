//! Dumps and call lists for the tests.

/// The bytes of a dump or call list.
pub fn bytes(records: &[(u8, u16)]) -> Vec<u8> {
    let mut bytes = (records.len() as u16).to_le_bytes().to_vec();
    bytes.extend(records.iter().map(|(kind, _)| *kind));
    bytes.extend(records.iter().flat_map(|(_, operand)| operand.to_le_bytes()));
    bytes
}

pub fn calls_only(records: &[(u8, u16)]) -> Vec<(u8, u16)> {
    records.iter().copied().filter(|(kind, _)| *kind < 16).collect()
}
