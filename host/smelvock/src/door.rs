use crate::Refusal;

mod export {
    unsafe extern "C" {
        pub fn door(records: *const u8, records_len: usize, out: *mut u8, out_len: usize) -> u32;
    }
}

/// Plays document 01's 16-byte records on a tree of fan 8, limit 512 and one entry of lengths 0, 0, made anew in each call, and
/// writes their answer records. Refused by 11, with the output as it was, where the lengths are unequal or not a multiple of 16.
///
/// ```
/// # use smelvock::{door, door_into, Refusal};
/// // kind 2 inserts (2, 0) at the end, kind 12 counts
/// let mut records = [0; 32];
/// (records[0], records[8], records[16]) = (2, 2, 12);
/// records[4..8].fill(0xFF);
/// let mut out = [0; 32];
/// assert_eq!(door_into(&records, &mut out), Ok(()));
/// // number, kind, and the fields: id 1 at position 0, 2 entries
/// assert_eq!((&out[..9], &out[16..21]), (&[0, 2, 0, 0, 1, 0, 0, 0, 0][..], &[0, 12, 0, 0, 2][..]));
/// ```
pub fn door_into(records: &[u8], out: &mut [u8]) -> Result<(), Refusal> {
    // SAFETY: the door is proved to read the records and to write the output and nothing else, whatever they hold.
    let number = unsafe { export::door(records.as_ptr(), records.len(), out.as_mut_ptr(), out.len()) };
    Refusal::unless(number, || ())
}

/// The same with an output of its own.
///
/// ```
/// # use smelvock::{door, door_into, Refusal};
/// // kind 2 inserts (2, 0) at the end, kind 12 counts
/// let mut records = [0; 32];
/// (records[0], records[8], records[16]) = (2, 2, 12);
/// records[4..8].fill(0xFF);
/// assert_eq!(door(&records)?[20], 2);
/// assert_eq!(door(&records[1..]), Err(Refusal::RECORDS));
/// # Ok::<(), Refusal>(())
/// ```
pub fn door(records: &[u8]) -> Result<Vec<u8>, Refusal> {
    let mut out = vec![0; records.len()];
    door_into(records, &mut out)?;
    Ok(out)
}
