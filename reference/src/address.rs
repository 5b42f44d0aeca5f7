//! Which addresses are legal.

/// The ways in which document 01 calls an address not legal.
#[derive(Clone, Copy, Debug, PartialEq, Eq)]
pub enum NotLegal {
    FirstByteFf,
    AllZero,
    Ipv4Multicast,
    Ipv4Zero,
    Ipv4Broadcast,
}

/// "IPv4 stands as ::ffff:a.b.c.d."
pub fn ipv4(address: &[u8; 16]) -> Option<[u8; 4]> {
    let prefix = [0, 0, 0, 0, 0, 0, 0, 0, 0, 0, 0xff, 0xff];
    address.strip_prefix(&prefix)?.try_into().ok()
}

/// "Not legal: first byte 0xff; all zero; IPv4 with a from 224 to 239;
/// 0.0.0.0; 255.255.255.255."
pub fn not_legal(address: &[u8; 16]) -> Option<NotLegal> {
    if address[0] == 0xff {
        return Some(NotLegal::FirstByteFf);
    }
    if address.iter().all(|byte| *byte == 0) {
        return Some(NotLegal::AllZero);
    }
    match ipv4(address)? {
        [224..=239, _, _, _] => Some(NotLegal::Ipv4Multicast),
        [0, 0, 0, 0] => Some(NotLegal::Ipv4Zero),
        [255, 255, 255, 255] => Some(NotLegal::Ipv4Broadcast),
        _ => None,
    }
}

/// The census case of a legal address that lies beside one that is not.
pub fn legal_edge(address: &[u8; 16]) -> Option<&'static str> {
    if address[0] == 0xfe {
        return Some("address: first byte 0xfe");
    }
    if address[..15].iter().all(|byte| *byte == 0) {
        return Some("address: zero but for the last byte");
    }
    if address[..10].iter().all(|byte| *byte == 0) && address[10..12] == [0xff, 0xfe] {
        return Some("address: beside the IPv4 prefix");
    }
    match ipv4(address)? {
        [223, ..] => Some("address: IPv4 223"),
        [240, ..] => Some("address: IPv4 240"),
        [0, 0, 0, 1] => Some("address: IPv4 0.0.0.1"),
        [255, 255, 255, 254] => Some("address: IPv4 255.255.255.254"),
        _ => Some("address: IPv4 elsewhere"),
    }
}
