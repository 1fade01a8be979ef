//! Captured IS-IS level 1 LSPs that carry sub-TLVs in MT-Capability TLVs, as a file
//! that a protocol analyser reads.

/// The MT-Capability TLV of RFC 6329.
const MT_CAPABILITY: u8 = 144;

/// O flag, 3 reserved bits and MTID: all zero.
const STANDARD_TOPOLOGY: [u8; 2] = [0, 0];

/// The common header of an IS-IS PDU: discriminator, length of the header, version, ID
/// length, PDU type 18 (level 1 LSP), version, reserved, area addresses.
const COMMON_HEADER: [u8; 8] = [0x83, 27, 1, 0, 18, 1, 0, 0];

/// LSPs without lifetime are not checked by their checksum.
const REMAINING_LIFETIME: u16 = 1_199;

const LSP_ID: [u8; 8] = [2, 0, 0, 0, 0, 1, 0, 0];

/// P, ATT and HIPPITY clear, level 1.
const IS_TYPE: u8 = 1;

/// From the LSP ID on, what the checksum covers has it after LSP ID and sequence number.
const CHECKSUM_PLACE: usize = 12;

/// All level 1 intermediate systems, and a source.
const ADDRESSES: [u8; 12] = [0x01, 0x80, 0xC2, 0, 0, 0x14, 2, 0, 0, 0, 0, 1];

/// The LLC header of ISO network layer PDUs.
const LLC: [u8; 3] = [0xFE, 0xFE, 0x03];

/// The link type of Ethernet in a capture, and the longest frame that it says it has.
const ETHERNET: u32 = 1;
const LONGEST_FRAME: u32 = 65_535;

/// The TLV around a sub-TLV, where it can carry it.
pub fn mt_capability(sub_tlv: &[u8]) -> Result<Vec<u8>, String> {
    let value = [&STANDARD_TOPOLOGY, sub_tlv].concat();
    let length = u8::try_from(value.len())
        .map_err(|_| format!("no MT-Capability TLV carries a sub-TLV of {} bytes", sub_tlv.len()))?;
    Ok([&[MT_CAPABILITY, length], &value[..]].concat())
}

/// An IEEE 802.3 frame with an LSP.
pub fn lsp_frame(sequence_number: u32, tlvs: &[u8]) -> Vec<u8> {
    let mut covered = LSP_ID.to_vec();
    covered.extend(sequence_number.to_be_bytes());
    covered.extend([0, 0, IS_TYPE]);
    covered.extend(tlvs);
    let checksum = checksum(&covered);
    covered[CHECKSUM_PLACE..CHECKSUM_PLACE + 2].copy_from_slice(&checksum);
    let pdu_length = (COMMON_HEADER.len() + 4 + covered.len()) as u16;
    let mut frame = ADDRESSES.to_vec();
    frame.extend((LLC.len() as u16 + pdu_length).to_be_bytes());
    frame.extend(LLC);
    frame.extend(COMMON_HEADER);
    frame.extend(pdu_length.to_be_bytes());
    frame.extend(REMAINING_LIFETIME.to_be_bytes());
    frame.extend(covered);
    frame
}

/// Fletcher's checksum as ISO 8473 places it: with it both sums are zero modulo 255.
fn checksum(covered: &[u8]) -> [u8; 2] {
    let (mut first, mut second) = (0_i64, 0_i64);
    for &byte in covered {
        first = (first + i64::from(byte)) % 255;
        second = (second + first) % 255;
    }
    let after = (covered.len() - CHECKSUM_PLACE - 1) as i64;
    let high = (after * first - second).rem_euclid(255);
    let low = (-first - high).rem_euclid(255);
    // Zero stands for no checksum, 255 for zero.
    [high, low].map(|octet| if octet == 0 { 255 } else { octet as u8 })
}

/// The frames as a capture file in the classic form.
pub fn capture(frames: &[Vec<u8>]) -> Vec<u8> {
    let heading = [0xA1B2_C3D4, 0x0002_0004, 0, 0, LONGEST_FRAME, ETHERNET];
    let mut file = crate::words::bytes_of(&heading);
    for (second, frame) in frames.iter().enumerate() {
        let length = frame.len() as u32;
        file.extend(crate::words::bytes_of(&[second as u32, 0, length, length]));
        file.extend(frame);
    }
    file
}

#[cfg(test)]
mod tests {
    use super::*;

    #[test]
    fn both_sums_of_an_lsp_are_zero() {
        for length in 0..40 {
            let frame = lsp_frame(7, &vec![length; usize::from(length)]);
            let covered = &frame[ADDRESSES.len() + 2 + LLC.len() + COMMON_HEADER.len() + 4..];
            let (mut first, mut second) = (0_u32, 0_u32);
            for &byte in covered {
                first += u32::from(byte);
                second += first;
            }
            assert_eq!((first % 255, second % 255), (0, 0), "length {length}");
        }
    }

    #[test]
    fn a_tlv_carries_sixty_services_and_not_sixty_one() {
        let tlv = mt_capability(&[3; 250]).expect("60 services fit");
        assert_eq!(tlv[..5], [144, 252, 0, 0, 3]);
        assert!(mt_capability(&[3; 254]).is_err());
    }
}
