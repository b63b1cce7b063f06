//! Request Nine: the profile of Level 0 products (002, section 9, Tables 45 to 48), which judges the group, subclass and version of VIADRs and MDRs. It is
//! asked of each record as the pass of `fast` comes by; `plainly` asks it of the rows.
use crate::fast::{self, Sink};
use crate::values::Refusal;
use crate::{plain, Row};

/// Where the first record against the profile starts.
struct Profile {
    against: Option<u64>,
}

impl Sink for Profile {
    #[inline(always)]
    fn put(&mut self, start: u64, head: &[u8; 20]) {
        // Most records are MDRs with the values of the tables.
        if head[0] >= 7 && !fits(head) && self.against.is_none() {
            self.against = Some(start);
        }
    }
}

/// Of a VIADR or MDR: both are GENERIC (group 0); a VIADR has subclass 0 and version 1 or 2, an MDR subclass 0 to 4 and version 1. A dummy MDR
/// (group 13) may stand in any product.
#[inline(always)]
fn fits(head: &[u8; 20]) -> bool {
    match u32::from_be_bytes([head[0], head[1], head[2], head[3]]) {
        0x0700_0001 | 0x0700_0002 => true,
        0x0800_0001 | 0x0800_0101 | 0x0800_0201 | 0x0800_0301 | 0x0800_0401 => true,
        0x080d_0000..=0x080d_ffff => true,
        _ => false,
    }
}

/// The finished judge's refusals 1 to 17; 29 with the start of the first record against the profile; 18; or the rows.
pub fn level0(bytes: &[u8], lent: &mut [Row]) -> Result<u64, Refusal> {
    fast::listed(bytes, lent, Profile { against: None }, |profile| profile.against.map(|place| Refusal { number: 29, place }))
}

/// The same by the rows that the row lister gives.
pub fn plainly(bytes: &[u8], lent: &mut [Row]) -> Result<u64, Refusal> {
    let mut rows = vec![[0; 7]; bytes.len() / 20];
    let count = plain::rows(bytes, &mut rows)?;
    rows.truncate(count as usize);
    if let Some(row) = rows.iter().find(|row| is_against(row)) {
        return Err(Refusal { number: 29, place: row[0] as u64 });
    }
    if lent.len() < rows.len() {
        return Err(Refusal { number: 18, place: count });
    }
    lent[..rows.len()].copy_from_slice(&rows);
    Ok(count)
}

const VIADR: u32 = 7;
const MDR: u32 = 8;
/// 002, Table 14.
const GENERIC: u32 = 0;
const DUMMY: u32 = 13;

fn is_against([_, _, class, group, subclass, version, _]: &Row) -> bool {
    match *class {
        // Tables 45 and 48
        VIADR => !(*group == GENERIC && *subclass == 0 && [1, 2].contains(version)),
        // 5.5.2
        MDR if *group == DUMMY => false,
        // Tables 46, 47 and 48
        MDR => !(*group == GENERIC && (0..=4).contains(subclass) && *version == 1),
        _ => false,
    }
}
