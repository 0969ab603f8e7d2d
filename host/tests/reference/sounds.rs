//! Sound lengths (02, P11), from the paper: what is told of an AIFF file as a lookup gives it.

use super::{number_at, refuse, tag_at, walk, Refusal};

/// What the call tells: channels, frames, sample size, rate and seconds.
pub type Sound = [u64; 5];

/// The data of a 'COMM' chunk: channels, frames, sample size and rate have 2, 4, 2 and 10 bytes.
const COMMON: usize = 18;
/// What the exponent stands above, and how many bits of the significand stand behind its first.
const BIAS: u32 = 16_383;
const BEHIND: u32 = 63;

/// 49, 50 and 51 in this order; their places are 0.
pub fn length(bytes: &[u8]) -> Result<Sound, Refusal> {
    if !is_form(bytes) {
        return refuse(49, 0);
    }
    let Ok(chunks) = walk(bytes) else { return refuse(49, 0) };
    let common: Vec<_> = chunks.iter().filter(|chunk| &tag_at(bytes, chunk.start) == b"COMM").collect();
    let [chunk] = common[..] else { return refuse(50, 0) };
    if chunk.length != COMMON {
        return refuse(50, 0);
    }
    let data = chunk.data(bytes);
    let short = |at: usize| u16::from_be_bytes([data[at], data[at + 1]]);
    let significand = u64::from_be_bytes(data[10..].try_into().unwrap());
    let Some(rate) = rate(short(8), significand) else { return refuse(51, 0) };
    let frames = number_at(data, 2);
    Ok([short(0) as u64, frames as u64, short(6) as u64, rate as u64, (frames / rate) as u64])
}

/// One 'FORM' of type 'AIFF', with a length of just these bytes.
fn is_form(bytes: &[u8]) -> bool {
    bytes.len() >= 12
        && &tag_at(bytes, 0) == b"FORM"
        && number_at(bytes, 4) as usize == bytes.len() - 8
        && &tag_at(bytes, 8) == b"AIFF"
}

/// The value of sign, exponent and significand, if it is a whole number from 1 to 4,294,967,295. The value is the significand times 2 to the power
/// of the exponent less BIAS and BEHIND, so at 2 to the power 0 it is the significand itself.
pub fn rate(sign_and_exponent: u16, significand: u64) -> Option<u32> {
    let (negative, exponent) = (sign_and_exponent >> 15 == 1, sign_and_exponent as u32 & 0x7FFF);
    if negative || significand == 0 {
        return None;
    }
    let whole = match exponent.checked_sub(BIAS + BEHIND) {
        // Times 2^up: 2^32 is reached by any significand from up = 32 on.
        Some(up) if up < 32 => (significand as u128) << up,
        Some(_) => return None,
        // Over 2^down, without a rest.
        None => {
            let down = BIAS + BEHIND - exponent;
            if significand.trailing_zeros() < down {
                return None;
            }
            (significand >> down) as u128
        }
    };
    u32::try_from(whole).ok()
}
