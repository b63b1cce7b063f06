//! The records of a product that is known to be whole, one by one.
use crate::leaves::read_header;
use crate::lines::MAIN_SIZE;
use crate::values::Header;

/// The headers and bytes of a product's records after the main header.
pub fn records(bytes: &[u8]) -> Vec<(Header, &[u8])> {
    let (mut at, mut all) = (MAIN_SIZE, Vec::new());
    while at < bytes.len() {
        let header = read_header(bytes, at).unwrap();
        all.push((header, &bytes[at..at + header.size as usize]));
        at += header.size as usize;
    }
    all
}

pub fn of_classes<'a>(all: &[(Header, &'a [u8])], from: u8, to: u8) -> Vec<&'a [u8]> {
    all.iter().filter(|r| (from..=to).contains(&r.0.class)).map(|r| r.1).collect()
}
