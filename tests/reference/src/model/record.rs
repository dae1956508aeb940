//! Records of 32 bytes: eight words, the most significant byte first.

/// The words: the kind, the dealer, the member, what the kind names from word 3 on, and the round.
pub type Record = [u32; 8];

pub const SIZE: usize = 32;

pub const KEY: u32 = 1;
pub const LINE: u32 = 2;
pub const OPENING: u32 = 3;
pub const SHARE: u32 = 4;
pub const ADDED: u32 = 5;

/// The record that 32 bytes hold.
pub fn read(bytes: &[u8]) -> Record {
    let mut record = [0; 8];
    for (word, bytes) in record.iter_mut().zip(bytes.chunks_exact(4)) {
        *word = u32::from_be_bytes([bytes[0], bytes[1], bytes[2], bytes[3]]);
    }
    record
}

/// Writes a record over 32 bytes.
pub fn write(record: Record, out: &mut [u8]) {
    for (bytes, word) in out.chunks_exact_mut(4).zip(record) {
        bytes.copy_from_slice(&word.to_be_bytes());
    }
}

/// The bytes of records, one after the other.
pub fn bytes(records: impl IntoIterator<Item = Record>) -> Vec<u8> {
    let words = records.into_iter().flatten();
    words.flat_map(u32::to_be_bytes).collect()
}

/// Whether the kind is known and the words that it does not name are zero. Word 7 is the round's in every kind.
pub fn has_form(record: &Record) -> bool {
    let named = match record[0] {
        KEY | OPENING => 4,
        SHARE | ADDED => 6,
        LINE => 7,
        _ => return false,
    };
    record[named..7].iter().all(|&word| word == 0)
}

/// Bytes as two digits each.
pub fn hex(bytes: &[u8]) -> String {
    bytes.iter().map(|byte| format!("{byte:02x}")).collect()
}

#[cfg(test)]
mod tests {
    use super::*;

    #[test]
    fn a_record_is_read_as_it_was_written() {
        let record = [2, 0x01020304, u32::MAX, 0, 1, 0x80000000, 255, 256];
        let mut bytes = [0xee; SIZE];
        write(record, &mut bytes);
        assert_eq!(bytes[..8], [0, 0, 0, 2, 1, 2, 3, 4]);
        assert_eq!(read(&bytes), record);
    }

    #[test]
    fn words_that_a_kind_does_not_name() {
        for (kind, named) in [(1, 4), (2, 7), (3, 4), (4, 6), (5, 6)] {
            for k in 0..8 {
                let mut record = [kind, 0, 0, 0, 0, 0, 0, 0];
                assert!(has_form(&record));
                if k > 0 {
                    record[k] = 1;
                    assert_eq!(has_form(&record), k < named || k == 7);
                }
            }
        }
        for kind in [0, 6, 9, u32::MAX] {
            assert!(!has_form(&[kind, 0, 0, 0, 0, 0, 0, 0]));
        }
    }
}
