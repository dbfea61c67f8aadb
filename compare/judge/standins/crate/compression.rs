//! Stands in for src/network/compression.rs: the packing of the rules.
//! (P-1 to P-3: every frame XOR the same reference; W must divide the length.)

pub(crate) fn encode<'a>(reference: &[u8], pending_input: impl Iterator<Item = &'a Vec<u8>>) -> Vec<u8> {
    let mut packed = Vec::new();
    for input in pending_input {
        packed.extend(xor(reference, input));
    }
    packed
}

pub(crate) fn decode(
    reference: &[u8],
    data: &[u8],
) -> Result<Vec<Vec<u8>>, Box<dyn std::error::Error + Send + Sync>> {
    if data.len() % reference.len() != 0 {
        return Err("not a multiple of the reference's length".into());
    }
    let mut inputs = Vec::new();
    for part in data.chunks(reference.len()) {
        inputs.push(xor(reference, part));
    }
    Ok(inputs)
}

fn xor(reference: &[u8], input: &[u8]) -> Vec<u8> {
    reference.iter().zip(input).map(|(a, b)| a ^ b).collect()
}
