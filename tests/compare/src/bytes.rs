//! Plans, dumps and call lists as bytes, written here from the documents and not by either side.

/// A record as its kind and operand.
pub type Numbers = (u8, u16);

/// The bytes of a dump or call list.
pub fn list(records: &[Numbers]) -> Vec<u8> {
    let mut bytes = (records.len() as u16).to_le_bytes().to_vec();
    bytes.extend(records.iter().map(|(kind, _)| *kind));
    bytes.extend(records.iter().flat_map(|(_, operand)| operand.to_le_bytes()));
    bytes
}

/// The bytes of a plan with the sections, base priorities and needs.
pub fn plan(sections: u8, bases: &[u8], needs: &[u16]) -> Vec<u8> {
    let mut bytes = vec![bases.len() as u8, sections];
    bytes.extend(bases);
    bytes.extend(needs.iter().flat_map(|bits| bits.to_le_bytes()));
    bytes
}

/// The calls among the records.
pub fn calls(records: &[Numbers]) -> Vec<Numbers> {
    records.iter().copied().filter(|(kind, _)| *kind < 16).collect()
}

/// The records of a dump or list in a true frame.
pub fn records_of(bytes: &[u8]) -> Option<Vec<Numbers>> {
    let number = bytes.len().checked_sub(2)? / 3;
    if bytes.len() != 2 + 3 * number {
        return None;
    }
    let (kinds, operands) = bytes[2..].split_at(number);
    Some(
        kinds
            .iter()
            .zip(operands.chunks(2))
            .map(|(kind, pair)| (*kind, u16::from_le_bytes([pair[0], pair[1]])))
            .collect(),
    )
}

pub fn hexadecimal(bytes: &[u8]) -> String {
    let words: Vec<String> = bytes.iter().map(|byte| format!("{byte:02x}")).collect();
    words.join(" ")
}

/// A line for the shell that feeds the bytes to one of the programs.
pub fn shell_line(bytes: &[u8], program: &str) -> String {
    let escapes: String = bytes.iter().map(|byte| format!("\\x{byte:02x}")).collect();
    format!("printf '{escapes}' | crates/{program}/out/{program}")
}
