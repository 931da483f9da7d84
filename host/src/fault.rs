//! What is wrong with a file that is no trace.
use crate::{
    Trace,
    trace::{RECORD, record_at, table_length, table_of},
    words::{counted, grouped},
};
use std::fmt;

/// Why a file is no trace. The discriminant is the refusal's number.
#[derive(Clone, Copy, Debug, PartialEq, Eq, Hash)]
pub enum FileRefusal {
    /// Shorter than its table: 28 bytes, or 40 with three sections.
    TooShort = 5,
    /// The table differs from a trace's, or the length from the table's; or more records are consumed than there are.
    Table = 6,
    /// A padding byte of a record is not 0.
    Padding = 7,
}

/// The fact that a file is refused for.
///
/// `{}` writes the line of the refusal, `{:#}` the fact too.
///
/// ```
/// use amx::{FileFault, FileRefusal, Record, State, Trace};
/// let mut trace = Trace::new(State::new());
/// trace.push(Record { instruction: 14, generation: 1, operand: 0 })?;
/// let fault = Trace::from_bytes(&trace.to_bytes()[..5_160]).unwrap_err();
/// assert_eq!(fault, FileFault::Cut { bytes: 5_160, told: 5_164 });
/// assert_eq!((fault.refusal(), fault.to_string()), (FileRefusal::Table, "file refused 6".to_owned()));
/// assert_eq!(format!("{fault:#}"), "file refused 6: 5,160 bytes, the table says 5,164");
/// # Ok::<(), amx::TraceFull>(())
/// ```
#[derive(Clone, Copy, Debug, PartialEq, Eq, Hash)]
pub enum FileFault {
    /// It ends in its table.
    Short {
        /// The bytes that it has.
        bytes: u64,
        /// The bytes of its table.
        table: u64,
    },
    /// A field of the table is not that of a trace.
    Field {
        /// Which one.
        field: TableField,
        /// What it is.
        value: u32,
        /// What a trace has there.
        expected: u32,
    },
    /// The table tells of more records than a trace holds.
    TooMany {
        /// How many.
        records: usize,
    },
    /// It ends before its table says.
    Cut {
        /// The bytes that it has.
        bytes: u64,
        /// The bytes that the table tells of.
        told: u64,
    },
    /// It does not end where its table says.
    Longer {
        /// The bytes that the table tells of.
        told: u64,
    },
    /// Its checkpoint has consumed more records than there are.
    Consumed {
        /// The records consumed.
        consumed: usize,
        /// The records of the file.
        records: usize,
    },
    /// A padding byte of a record is not 0.
    Padding {
        /// The record, counted from 0.
        record: usize,
        /// The byte of the record, 2 to 7.
        byte: usize,
        /// The byte of the file.
        at: u64,
        /// What it is.
        value: u8,
    },
}

/// A field of the table that a trace file begins with.
#[derive(Clone, Copy, Debug, PartialEq, Eq, Hash)]
pub enum TableField {
    /// The count of sections.
    Sections,
    /// The kind of a section, which is its number.
    Kind(u8),
    /// The two bytes behind a kind, which are 0.
    Zero(u8),
    /// Where a section begins.
    Offset(u8),
    /// The bytes of a section.
    Length(u8),
}

impl FileFault {
    /// The refusal that the fact is for.
    pub fn refusal(self) -> FileRefusal {
        match self {
            FileFault::Short { .. } => FileRefusal::TooShort,
            FileFault::Padding { .. } => FileRefusal::Padding,
            _ => FileRefusal::Table,
        }
    }

    /// The fact alone, in words.
    fn fact(self) -> String {
        let (bytes, steps) = (|n: u64| counted(n, "byte"), |n: usize| counted(n as u64, "step"));
        match self {
            FileFault::Short { bytes: 0, .. } => "it is empty".to_owned(),
            FileFault::Short { bytes: n, table } => format!("{}, and its table has {}", bytes(n), grouped(table)),
            FileFault::Field { field: TableField::Sections, value, .. } => {
                format!("its table tells of {}, where a trace has 2 or 3", counted(value.into(), "section"))
            }
            FileFault::Field { field: TableField::Length(2), value, .. } if !value.is_multiple_of(RECORD as u32) => {
                format!("the length of section 2 is {}, and a step has {RECORD} bytes", grouped(value.into()))
            }
            FileFault::Field { field, value, expected } => {
                format!("{field} is {}, where a trace has {}", grouped(value.into()), grouped(expected.into()))
            }
            FileFault::TooMany { records } => {
                format!("its table tells of {}, where a trace has up to {}", steps(records), grouped(Trace::MAX_RECORDS as u64))
            }
            FileFault::Cut { bytes: n, told } => format!("{}, the table says {}", bytes(n), grouped(told)),
            FileFault::Longer { told } => format!("it goes on behind its {}, which the table says", bytes(told)),
            FileFault::Consumed { consumed, records } => {
                format!("its checkpoint has consumed {}, and there are {}", steps(consumed), grouped(records as u64))
            }
            FileFault::Padding { record, byte, at, value } => {
                let (record, at) = (grouped(record as u64), grouped(at));
                format!("byte {byte} of step {record}, byte {at} of the file, is {value:#04x}, where padding is 0")
            }
        }
    }

    /// What is wrong with a table of so many sections, if anything is. The length of the second section tells how many records there are.
    pub(crate) fn of_table(table: &[u8], sections: usize) -> Result<usize, Self> {
        let (value, records) = (word(table, 0, 4), word(table, 24, 4) as usize / RECORD);
        if !matches!(value, 2 | 3) {
            return Err(FileFault::Field { field: TableField::Sections, value, expected: 2 });
        }
        let expected = table_of(records, sections);
        for (at, bytes, field) in table_fields(sections) {
            let (value, expected) = (word(table, at, bytes), word(&expected, at, bytes));
            if value != expected {
                return Err(FileFault::Field { field, value, expected });
            }
        }
        if records > Trace::MAX_RECORDS { Err(FileFault::TooMany { records }) } else { Ok(records) }
    }

    /// The first padding byte of a record that is not 0, if there is one.
    pub(crate) fn of_padding(bytes: &[u8; RECORD], record: usize, sections: usize) -> Option<Self> {
        let byte = (2..8).find(|&byte| bytes[byte] != 0)?;
        Some(FileFault::Padding { record, byte, at: record_at(record, sections) + byte as u64, value: bytes[byte] })
    }
}

/// The fields of a table's entries, with where they stand and how many bytes they have.
fn table_fields(sections: usize) -> impl Iterator<Item = (usize, usize, TableField)> {
    (1..=sections as u8).flat_map(|section| {
        let at = table_length(usize::from(section) - 1);
        [
            (at, 2, TableField::Kind(section)),
            (at + 2, 2, TableField::Zero(section)),
            (at + 4, 4, TableField::Offset(section)),
            (at + 8, 4, TableField::Length(section)),
        ]
    })
}

/// The little-endian number in 2 or 4 bytes of a table.
fn word(table: &[u8], at: usize, bytes: usize) -> u32 {
    table[at..at + bytes].iter().rev().fold(0, |word, &byte| word << 8 | u32::from(byte))
}

impl fmt::Display for FileRefusal {
    fn fmt(&self, f: &mut fmt::Formatter) -> fmt::Result {
        write!(f, "file refused {}", *self as u8)
    }
}

impl fmt::Display for FileFault {
    fn fmt(&self, f: &mut fmt::Formatter) -> fmt::Result {
        self.refusal().fmt(f)?;
        if f.alternate() { write!(f, ": {}", self.fact()) } else { Ok(()) }
    }
}

impl fmt::Display for TableField {
    fn fmt(&self, f: &mut fmt::Formatter) -> fmt::Result {
        match self {
            TableField::Sections => write!(f, "the count of sections"),
            TableField::Kind(section) => write!(f, "the kind of section {section}"),
            TableField::Zero(section) => write!(f, "what follows the kind of section {section}"),
            TableField::Offset(section) => write!(f, "the offset of section {section}"),
            TableField::Length(section) => write!(f, "the length of section {section}"),
        }
    }
}

impl std::error::Error for FileRefusal {}
impl std::error::Error for FileFault {}

#[cfg(test)]
mod tests {
    use super::*;
    use crate::trace::tests::trace;

    fn fault(file: &[u8]) -> String {
        format!("{:#}", Trace::from_bytes(file).unwrap_err())
    }

    fn with(mut file: Vec<u8>, at: usize, byte: u8) -> Vec<u8> {
        file[at] = byte;
        file
    }

    #[test]
    fn a_refused_file_is_told_the_fact() {
        let (two, three) = (trace(4).to_bytes(), trace(4).cut(1).unwrap().to_bytes());
        for (file, words) in [
            (vec![], "5: it is empty"),
            (two[..1].to_vec(), "5: 1 byte, and its table has 28"),
            (three[..39].to_vec(), "5: 39 bytes, and its table has 40"),
            (with(two.clone(), 0, 7), "6: its table tells of 7 sections, where a trace has 2 or 3"),
            (with(two.clone(), 0, 1), "6: its table tells of 1 section, where a trace has 2 or 3"),
            (with(two.clone(), 3, 1), "6: its table tells of 16,777,218 sections, where a trace has 2 or 3"),
            (with(two[..28].to_vec(), 0, 4), "6: its table tells of 4 sections, where a trace has 2 or 3"),
            (with(two[..27].to_vec(), 0, 4), "5: 27 bytes, and its table has 28"),
            (with(two[..39].to_vec(), 0, 3), "5: 39 bytes, and its table has 40"),
            (with(two.clone(), 4, 2), "6: the kind of section 1 is 2, where a trace has 1"),
            (with(two.clone(), 7, 1), "6: what follows the kind of section 1 is 256, where a trace has 0"),
            (with(two.clone(), 8, 27), "6: the offset of section 1 is 27, where a trace has 28"),
            (with(two.clone(), 13, 0), "6: the length of section 1 is 0, where a trace has 5,120"),
            (with(two.clone(), 24, 33), "6: the length of section 2 is 33, and a step has 16 bytes"),
            (with(two.clone(), 27, 1), "6: its table tells of 1,048,580 steps, where a trace has up to 1,000,000"),
            (with(three.clone(), 28, 9), "6: the kind of section 3 is 9, where a trace has 3"),
            (with(three.clone(), 20, 0), "6: the offset of section 2 is 5,120, where a trace has 5,160"),
            (with(three.clone(), 32, 0), "6: the offset of section 3 is 5,120, where a trace has 5,224"),
            (with(three.clone(), 36, 0), "6: the length of section 3 is 5,120, where a trace has 5,132"),
            (three[..40].to_vec(), "6: 40 bytes, the table says 10,356"),
            (three[..5_159].to_vec(), "6: 5,159 bytes, the table says 10,356"),
            (three[..5_161].to_vec(), "6: 5,161 bytes, the table says 10,356"),
            (three[..5_224].to_vec(), "6: 5,224 bytes, the table says 10,356"),
            (two[..28].to_vec(), "6: 28 bytes, the table says 5,212"),
            (two[..5_148].to_vec(), "6: 5,148 bytes, the table says 5,212"),
            (two[..5_147].to_vec(), "6: 5,147 bytes, the table says 5,212"),
            (two[..5_200].to_vec(), "6: 5,200 bytes, the table says 5,212"),
            ([&two[..], &[0]].concat(), "6: it goes on behind its 5,212 bytes, which the table says"),
            (three[..three.len() - 1].to_vec(), "6: 10,355 bytes, the table says 10,356"),
            ([&three[..], &[0]].concat(), "6: it goes on behind its 10,356 bytes, which the table says"),
            (with(three.clone(), 5_224, 5), "6: its checkpoint has consumed 5 steps, and there are 4"),
            (with(two.clone(), 5_148 + 48 + 6, 1), "7: byte 6 of step 3, byte 5,202 of the file, is 0x01, where padding is 0"),
            (with(three.clone(), 5_160 + 63 - 8, 2), "7: byte 7 of step 3, byte 5,215 of the file, is 0x02, where padding is 0"),
            (with(three.clone(), 5_160 + 2, 0xff), "7: byte 2 of step 0, byte 5,162 of the file, is 0xff, where padding is 0"),
        ] {
            assert_eq!(fault(&file), format!("file refused {words}"));
        }
    }
}
