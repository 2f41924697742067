//! Clause 5.1.1: CRC calculation.

/// Exponents of a generator polynomial, highest first, as the standard prints it.
pub type Generator = [usize];

/// g_CRC24A(D), for the transport block.
pub const CRC24A: [usize; 14] = [24, 23, 18, 17, 14, 11, 10, 7, 6, 5, 4, 3, 1, 0];

/// g_CRC24B(D), for each code block where there is more than one.
pub const CRC24B: [usize; 6] = [24, 23, 6, 5, 1, 0];

/// g_CRC16(D), for control information.
pub const CRC16: [usize; 4] = [16, 12, 5, 0];

/// The parity bits p_0 .. p_{L-1} of `bits`, L being the degree of `generator`.
///
/// Long division on paper: the polynomial with L zeros in the parity's stead leaves as
/// remainder exactly the parity that makes the whole divisible.
pub fn parity(bits: &[u8], generator: &Generator) -> Vec<u8> {
    let degree = generator[0];
    let mut dividend = bits.to_vec();
    dividend.resize(bits.len() + degree, 0);
    for k in 0..bits.len() {
        if dividend[k] == 1 {
            for exponent in generator {
                dividend[k + degree - exponent] ^= 1;
            }
        }
    }
    dividend.split_off(bits.len())
}

/// b_0 .. b_{B-1}: the bits followed by their parity.
pub fn attach(bits: &[u8], generator: &Generator) -> Vec<u8> {
    let mut attached = bits.to_vec();
    attached.extend(parity(bits, generator));
    attached
}
