//! Octets behind the fixed part, whole TLVs and not.

/// A TLV whose length field says `says` and whose value has `has` octets.
fn tlv(says: u16, has: usize) -> Vec<u8> {
    let mut octets = vec![0x00, 0x08];
    octets.extend(says.to_be_bytes());
    octets.extend((0..has).map(|place| 0xa0 ^ place as u8));
    octets
}

/// Suffixes that are whole, even TLVs.
pub fn good() -> Vec<Vec<u8>> {
    vec![
        vec![],
        tlv(0, 0),
        tlv(2, 2),
        tlv(8, 8),
        tlv(254, 254),
        tlv(256, 256),
        [tlv(0, 0), tlv(0, 0)].concat(),
        [tlv(2, 2), tlv(4, 4), tlv(6, 6)].concat(),
        [tlv(4, 4), tlv(0, 0)].concat(),
        [tlv(0, 0), tlv(4, 4)].concat(),
        vec![0; 4],
        vec![0; 40],
        vec![0xff, 0xff, 0, 0],
    ]
}

/// Suffixes that are odd, end early or end late, alone and behind a good TLV.
pub fn bad() -> Vec<Vec<u8>> {
    let mut cases = vec![
        vec![0x00],
        vec![0x00, 0x08],
        vec![0x00, 0x08, 0x00],
        vec![0; 2],
        vec![0; 6],
        vec![0xff; 4],
        vec![0xff; 44],
        tlv(1, 1),
        tlv(3, 3),
        tlv(255, 255),
        tlv(257, 257),
        tlv(1, 2),
        tlv(1, 0),
        tlv(2, 0),
        tlv(2, 1),
        tlv(4, 3),
        tlv(4, 2),
        tlv(8, 0),
        tlv(256, 255),
        tlv(256, 0),
        tlv(65_534, 2),
        tlv(65_535, 2),
        tlv(0, 1),
        tlv(0, 2),
        tlv(2, 3),
        tlv(2, 4),
        tlv(2, 5),
    ];
    let behind: Vec<Vec<u8>> = cases.iter().map(|bad| [tlv(2, 2), bad.clone()].concat()).collect();
    cases.extend(behind);
    // An odd one whose end the next would meet.
    cases.push([tlv(1, 1), vec![0], tlv(2, 2)].concat());
    cases.push([tlv(3, 3), tlv(1, 1)].concat());
    cases
}
