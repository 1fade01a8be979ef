//! The SPBM Service Identifier sub-TLV of RFC 6329: type 3, length, B-MAC, 4 reserved
//! bits and Base VID, then T, R, 6 reserved bits and I-SID for each service.

pub const TYPE: u8 = 3;

/// The bytes of type and length, which the length does not count.
pub const TYPE_AND_LENGTH: usize = 2;

/// The bytes before the first service: type, length, B-MAC, reserved bits and Base VID.
pub const HEADING: usize = 10;

/// The bytes of one service.
pub const SERVICE: usize = 4;

#[derive(Clone, Copy, PartialEq, Eq, Debug)]
pub struct Service {
    pub transmits: bool,
    pub receives: bool,
    /// 6 bits.
    pub reserved: u8,
    pub i_sid: u32,
}

impl Service {
    fn bytes(&self) -> [u8; SERVICE] {
        let flags = u32::from(self.transmits) << 31 | u32::from(self.receives) << 30;
        (flags | u32::from(self.reserved) << 24 | self.i_sid).to_be_bytes()
    }

    fn read(bytes: &[u8]) -> Service {
        Service {
            transmits: bytes[0] >> 7 == 1,
            receives: bytes[0] >> 6 & 1 == 1,
            reserved: bytes[0] & 0x3F,
            i_sid: u32::from_be_bytes([0, bytes[1], bytes[2], bytes[3]]),
        }
    }
}

#[derive(Clone, PartialEq, Eq, Debug)]
pub struct SubTlv {
    /// The 48-bit B-MAC.
    pub b_mac: u64,
    /// 4 bits.
    pub reserved: u8,
    pub vid: u16,
    pub services: Vec<Service>,
}

impl SubTlv {
    /// The bytes with type and length. Of a length that no byte holds the low byte stands.
    pub fn bytes(&self) -> Vec<u8> {
        let names = self.b_mac << 16 | u64::from(self.reserved) << 12 | u64::from(self.vid);
        let length = HEADING - TYPE_AND_LENGTH + SERVICE * self.services.len();
        let mut bytes = vec![TYPE, length as u8];
        bytes.extend(names.to_be_bytes());
        bytes.extend(self.services.iter().flat_map(Service::bytes));
        bytes
    }

    /// The fields by their places alone, whatever type and length say; none where the
    /// heading is not all there. Bytes after the last whole service are left out.
    pub fn read(bytes: &[u8]) -> Option<SubTlv> {
        let names = bytes.get(TYPE_AND_LENGTH..HEADING)?;
        let names = u64::from_be_bytes(names.try_into().expect("the names are eight bytes"));
        Some(SubTlv {
            b_mac: names >> 16,
            reserved: (names >> 12) as u8 & 0x0F,
            vid: names as u16 & 0x0FFF,
            services: bytes[HEADING..].chunks_exact(SERVICE).map(Service::read).collect(),
        })
    }
}

#[cfg(test)]
mod tests {
    use super::*;

    #[test]
    fn each_field_has_its_place() {
        let service = |transmits, receives, reserved, i_sid| Service { transmits, receives, reserved, i_sid };
        let sub_tlv = SubTlv {
            b_mac: 0x0200_0000_0001,
            reserved: 0xA,
            vid: 0x123,
            services: vec![service(true, false, 0, 0x00_0100), service(false, true, 0x3F, 0xFF_FFFE)],
        };
        let bytes = [3, 16, 2, 0, 0, 0, 0, 1, 0xA1, 0x23, 0x80, 0, 1, 0, 0x7F, 0xFF, 0xFF, 0xFE];
        assert_eq!(sub_tlv.bytes(), bytes);
        assert_eq!(SubTlv::read(&bytes), Some(sub_tlv));
    }

    #[test]
    fn the_heading_alone_is_read_and_less_is_not() {
        let empty = SubTlv { b_mac: 1, reserved: 0, vid: 1, services: Vec::new() };
        let bytes = empty.bytes();
        assert_eq!(bytes.len(), HEADING);
        assert_eq!(SubTlv::read(&bytes), Some(empty));
        assert_eq!(SubTlv::read(&bytes[..HEADING - 1]), None);
    }
}
