//! Small recordings for the tests.

/// The minicomputer frame of a text.
pub fn frame(text: &str) -> Vec<u8> {
    let mut inside = text.as_bytes().to_vec();
    inside.push(3);
    let check = inside.iter().fold(0, |check, byte| check ^ byte);
    [&[2], &inside[..], &[check, 0x7f]].concat()
}

/// A recording of address 1 and access 2.
pub fn recording(exchanges: &[(Vec<u8>, Vec<u8>)]) -> Vec<u8> {
    let mut bytes = vec![1, 0, 0, 1, 2];
    for side in exchanges
        .iter()
        .flat_map(|(request, reply)| [request, reply])
    {
        bytes.push(side.len() as u8);
        bytes.extend(side);
    }
    let length = (bytes.len() as u16).to_be_bytes();
    bytes[1..3].copy_from_slice(&length);
    bytes
}

/// The same by the texts behind the address digits.
pub fn recording_of(texts: &[(&str, &str)]) -> Vec<u8> {
    let frames = texts
        .iter()
        .map(|(request, reply)| (frame(&format!("01{request}")), frame(&format!("01{reply}"))));
    recording(&frames.collect::<Vec<_>>())
}
