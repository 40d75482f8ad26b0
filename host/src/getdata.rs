use crate::ffi;
use crate::types::{Hash256, Refusal, Result};

/// Hashes in one payload, at most: a longer list is sent as several, `hashes.chunks(GETDATA_HASHES)`.
pub const GETDATA_HASHES: usize = 256;
const HASH_WORDS: usize = 4;
/// The count takes no more than this.
const COUNT_BYTES: usize = 3;
/// Of one entry: its type and its hash.
const ENTRY_BYTES: usize = 36;

/// The payload of the getdata message that asks for these blocks: their number as CompactSize, then for each the type 0x40000002 (BIP 144's witness
/// block), low byte first, and the hash's 32 bytes. No window is needed; what was sent is marked by
/// [`mark_requested`](crate::DownloadWindow::mark_requested).
///
/// ```
/// use kofudile::{Hash256, Refusal, write_getdata};
///
/// let payload = write_getdata(&[Hash256([7; 32])])?;
/// assert_eq!(payload.len(), 37);
/// assert_eq!(payload[..6], [1, 2, 0, 0, 0x40, 7]);
/// assert_eq!(write_getdata(&[])?, [0]);
/// assert_eq!(write_getdata(&[Hash256([7; 32]); 257]), Err(Refusal::TooMany));
/// # Ok::<(), Refusal>(())
/// ```
///
/// # Errors
/// [`Refusal::TooMany`]: more than [`GETDATA_HASHES`]
pub fn write_getdata(hashes: &[Hash256]) -> Result<Vec<u8>> {
    written(hashes.iter())
}

/// The same for a request as [`mark_requested`](crate::DownloadWindow::mark_requested) takes it, hash and height; the heights are not sent.
///
/// ```
/// use kofudile::{DownloadWindow, Hash256, Headroom, default_sync_budget, read_getdata, write_request};
/// use std::time::{Duration, Instant};
///
/// # fn main() -> kofudile::Result<()> {
/// # let now = Instant::now();
/// # let keys: [u8; 256] = std::array::from_fn(|seat| seat as u8);
/// # let mut window = DownloadWindow::new(default_sync_budget(Duration::from_secs(600)), &keys, now)?;
/// let request = [(Hash256([7; 32]), 1), (Hash256([9; 32]), 2)];
/// let payload = write_request(&request)?;
/// window.mark_requested(Headroom::UNLIMITED, 3, &request, 3, now)?;
/// assert_eq!(read_getdata(&payload)?, [Hash256([7; 32]), Hash256([9; 32])]);
/// # Ok(())
/// # }
/// ```
///
/// # Errors
/// [`Refusal::TooMany`]: more than [`GETDATA_HASHES`]
pub fn write_request(entries: &[(Hash256, u32)]) -> Result<Vec<u8>> {
    written(entries.iter().map(|(hash, _)| hash))
}

/// The hashes that a getdata payload asks for, in its order. It may come from a stranger: any bytes may be handed in, and exactly what
/// [`write_getdata`] writes is accepted.
///
/// ```
/// use kofudile::{Hash256, Refusal, read_getdata, write_getdata};
///
/// let hashes = [Hash256([7; 32]), Hash256([9; 32])];
/// let mut payload = write_getdata(&hashes)?;
/// assert_eq!(read_getdata(&payload)?, hashes);
/// payload.push(0);
/// assert_eq!(read_getdata(&payload), Err(Refusal::Payload));
/// # Ok::<(), Refusal>(())
/// ```
///
/// # Errors
/// [`Refusal::Payload`]
pub fn read_getdata(payload: &[u8]) -> Result<Vec<Hash256>> {
    // An accepted payload has ENTRY_BYTES for each of its hashes, so this is room for all of them, and little of a short one.
    let mut words = vec![0; HASH_WORDS * GETDATA_HASHES.min(payload.len() / ENTRY_BYTES)];
    // SAFETY: both are lent for this call alone, and `words` is ours and apart from the payload.
    let said = unsafe { ffi::kofudile_read_getdata_words(payload.as_ptr(), payload.len(), words.as_mut_ptr(), words.len()) };
    let hash = |words: &[u64]| Hash256::of(ffi::Hash([words[0], words[1], words[2], words[3]]));
    Refusal::unless(said.refused, || words.chunks_exact(HASH_WORDS).take(said.value as usize).map(hash).collect())
}

/// One more than the most is enough for the refusal, whatever the list's length.
fn written<'a>(hashes: impl Iterator<Item = &'a Hash256>) -> Result<Vec<u8>> {
    let words: Vec<u64> = hashes.take(GETDATA_HASHES + 1).flat_map(|hash| hash.words()).collect();
    let mut out = vec![0; COUNT_BYTES + ENTRY_BYTES * (words.len() / HASH_WORDS)];
    // SAFETY: both are ours, apart, and lent for this call alone.
    let said = unsafe { ffi::kofudile_write_getdata_words(words.as_ptr(), words.len(), out.as_mut_ptr(), out.len()) };
    Refusal::unless(said.refused, || {
        out.truncate(said.value as usize);
        out
    })
}
