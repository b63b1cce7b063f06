//! Classes of records and groups of instruments.
use std::fmt;

/// The class of a record. Classes come in the order of the sections: MPHR; SPHR; IPRs; GEADRs and GIADRs mixed; VEADRs and VIADRs mixed; MDRs.
#[derive(Clone, Copy, Debug, PartialEq, Eq, Hash, PartialOrd, Ord)]
#[repr(u8)]
pub enum Class {
    /// The main product header, 3,307 bytes.
    Mphr = 1,
    /// The secondary product header, at most one.
    Sphr = 2,
    /// An internal pointer, 27 bytes.
    Ipr = 3,
    /// Global external auxiliary data.
    Geadr = 4,
    /// Global internal auxiliary data.
    Giadr = 5,
    /// Variable external auxiliary data.
    Veadr = 6,
    /// Variable internal auxiliary data.
    Viadr = 7,
    /// Measurement data; of the group `Dummy` what stands for data that are missing.
    Mdr = 8,
}

impl Class {
    const ALL: [(Class, &'static str); 8] = [
        (Class::Mphr, "MPHR"),
        (Class::Sphr, "SPHR"),
        (Class::Ipr, "IPR"),
        (Class::Geadr, "GEADR"),
        (Class::Giadr, "GIADR"),
        (Class::Veadr, "VEADR"),
        (Class::Viadr, "VIADR"),
        (Class::Mdr, "MDR"),
    ];

    /// The class of a number.
    pub fn of(number: u8) -> Option<Class> {
        Class::ALL.iter().map(|known| known.0).find(|class| *class as u8 == number)
    }

    /// Its name in the format's words.
    pub fn name(self) -> &'static str {
        Class::ALL[self as usize - 1].1
    }
}

impl fmt::Display for Class {
    fn fmt(&self, f: &mut fmt::Formatter) -> fmt::Result {
        f.pad(self.name())
    }
}

/// The group of instruments that a record is of.
#[derive(Clone, Copy, Debug, PartialEq, Eq, Hash, PartialOrd, Ord)]
#[repr(u8)]
#[allow(missing_docs)]
pub enum Group {
    Generic = 0,
    AmsuA = 1,
    Ascat = 2,
    Atovs = 3,
    Avhrr3 = 4,
    Gome = 5,
    Gras = 6,
    Hirs4 = 7,
    Iasi = 8,
    Mhs = 9,
    Sem = 10,
    Adcs = 11,
    Sbuv = 12,
    Dummy = 13,
    IasiL2 = 15,
    Archive = 99,
}

impl Group {
    const ALL: [(Group, &'static str); 16] = [
        (Group::Generic, "generic"),
        (Group::AmsuA, "AMSU-A"),
        (Group::Ascat, "ASCAT"),
        (Group::Atovs, "ATOVS"),
        (Group::Avhrr3, "AVHRR/3"),
        (Group::Gome, "GOME"),
        (Group::Gras, "GRAS"),
        (Group::Hirs4, "HIRS/4"),
        (Group::Iasi, "IASI"),
        (Group::Mhs, "MHS"),
        (Group::Sem, "SEM"),
        (Group::Adcs, "ADCS"),
        (Group::Sbuv, "SBUV"),
        (Group::Dummy, "dummy"),
        (Group::IasiL2, "IASI level 2"),
        (Group::Archive, "archive"),
    ];

    /// The group of a number.
    pub fn of(number: u8) -> Option<Group> {
        Group::ALL.iter().map(|known| known.0).find(|group| *group as u8 == number)
    }

    /// Its name.
    pub fn name(self) -> &'static str {
        Group::ALL.iter().find(|known| known.0 == self).expect("every group has a name").1
    }
}

impl fmt::Display for Group {
    fn fmt(&self, f: &mut fmt::Formatter) -> fmt::Result {
        f.pad(self.name())
    }
}
