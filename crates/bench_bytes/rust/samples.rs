//! Messages and parts of messages.

pub const HELLO: &[u8] = b"l\x01\0\x01\0\0\0\0\x01\0\0\0m\0\0\0\x01\x01o\0\x15\0\0\0/org/freedesktop/DBus\0\0\0\
    \x02\x01s\0\x14\0\0\0org.freedesktop.DBus\0\0\0\0\x03\x01s\0\x05\0\0\0Hello\0\0\0\x06\
    \x01s\0\x14\0\0\0org.freedesktop.DBus\0\0\0\0";

pub fn strings() -> Vec<u8> {
    let mut body = b"\xc0\x03\0\0".to_vec();
    for _ in 0..20 {
        body.extend_from_slice(b"\x2b\0\0\0org.example.service.name.of.some.length.abc\0");
    }
    body
}

pub fn arguments() -> Vec<u8> {
    let mut body = Vec::new();
    for _ in 0..20 {
        body.extend_from_slice(b"\x2b\0\0\0org.example.service.name.of.some.length.abc\0");
    }
    body
}

pub fn many_bytes() -> Vec<u8> {
    let mut body = b"\0\0\x01\0".to_vec();
    body.extend((0..65_536u32).map(|number| (number % 251) as u8));
    body
}
