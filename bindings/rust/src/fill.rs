//! Vectors that a call fills.

use crate::raw::{self, RawOutcome};
use crate::{Error, Refusal};
use std::ops::Range;

/// A number of something; none for the number of nothing.
pub(crate) fn number_of(number: usize) -> Option<usize> {
    (number != usize::MAX).then_some(number)
}

/// The text that a call writes, of as many bytes as a rule.
pub(crate) fn text_by(
    expected: usize,
    call: impl FnMut(*mut u8, usize, &mut usize) -> u32,
) -> Result<String, Error> {
    let mut found = Vec::new();
    fill(&mut found, expected, call)?;
    String::from_utf8(fitted(found)).map_err(|_| Error::NotUtf8)
}

/// Fills a vector by a call that is lent its room, and lends more where that is too small. What is found is `expected` elements or fewer as a rule: then it is
/// found at once, and else by a second call. Where the status is DONE, the call has written as many elements to the front of the room as it has counted.
pub(crate) fn fill<T>(
    found: &mut Vec<T>,
    expected: usize,
    mut call: impl FnMut(*mut T, usize, &mut usize) -> u32,
) -> Result<(), Error> {
    found.clear();
    // Where there is no room for so many, the call is made all the same: there may be fewer, or another error comes.
    let _ = found.try_reserve_exact(expected);
    loop {
        let mut count = 0;
        match call(found.as_mut_ptr(), found.capacity(), &mut count) {
            raw::DONE => {
                // SAFETY: with this status so many elements stand at the front of the room.
                unsafe { found.set_len(count) };
                return Ok(());
            }
            raw::TOO_SMALL => found.try_reserve(count).map_err(|_| Error::NoMemory)?,
            status => return Err(Error::of(status)),
        }
    }
}

/// Whether a call has written what it has found; else it wants more room.
pub(crate) fn is_done(status: u32) -> Result<bool, Error> {
    match status {
        raw::DONE => Ok(true),
        raw::TOO_SMALL => Ok(false),
        status => Err(Error::of(status)),
    }
}

/// The elements of a vector without much room beside them, since they may be kept for long.
pub(crate) fn fitted<T: Copy>(found: Vec<T>) -> Vec<T> {
    let mut fitted = Vec::new();
    if found.capacity() / 2 <= found.len() || fitted.try_reserve_exact(found.len()).is_err() {
        return found;
    }
    fitted.extend_from_slice(&found);
    fitted
}

/// What a call for many is lent: from which one it reads on, and where it writes elements and ends. It reads as many as it has room for ends.
pub(crate) struct Lent<T> {
    pub(crate) from: usize,
    pub(crate) array: *mut T,
    pub(crate) len: usize,
    pub(crate) ends: *mut usize,
    pub(crate) ends_len: usize,
}

/// Fills two vectors by a call for so many: with the elements that are found, and with where those of each end. `expected` elements or fewer are found as a rule,
/// and else a second call goes on behind those that had room; where calls cannot go on, it is for all again. If one is refused, what was found before it stays;
/// after another error there are none.
pub(crate) fn fill_many<T>(
    found: &mut Vec<T>,
    ends: &mut Vec<usize>,
    many: usize,
    expected: usize,
    goes_on: bool,
    call: impl Fn(Lent<T>, &mut RawOutcome) -> u32,
) -> Result<(), Refusal> {
    found.clear();
    ends.clear();
    ends.try_reserve(many).map_err(|_| Error::NoMemory)?;
    let _ = found.try_reserve_exact(expected);
    let (mut many, mut refusal) = (many, None);
    loop {
        let (from, written) = (ends.len(), found.len());
        let mut outcome = RawOutcome::default();
        // SAFETY: what is written so far stands within the room of both vectors.
        let lent = Lent {
            from,
            array: unsafe { found.as_mut_ptr().add(written) },
            len: found.capacity() - written,
            ends: unsafe { ends.as_mut_ptr().add(from) },
            ends_len: many - from,
        };
        let status = call(lent, &mut outcome);
        if status != raw::DONE && status != raw::TOO_SMALL {
            let (error, at) = (Error::of(status), number_of(outcome.blamed));
            match at {
                Some(at) if is_of_one(error) => many = from + at,
                _ => return none_of(found, ends, Refusal { error, at }),
            }
            let at = Some(many);
            refusal = Some(Refusal { error, at });
        }
        // SAFETY: with each status as many are written as the outcome says.
        unsafe { take(found, ends, outcome.done) };
        if ends.len() == many {
            return refusal.map_or(Ok(()), Err);
        }
        let mut missing = outcome.count - (found.len() - written);
        if !goes_on {
            found.clear();
            ends.clear();
            missing = outcome.count;
        }
        if found.try_reserve(missing).is_err() {
            return none_of(found, ends, Error::NoMemory.into());
        }
    }
}

/// Counts what a call has written behind what stands in both vectors: so many ends, and the elements that they count.
///
/// # Safety
///
/// So many ends stand behind those of the vector, within its room, and as many elements as the last of them says behind the elements.
unsafe fn take<T>(found: &mut Vec<T>, ends: &mut Vec<usize>, done: usize) {
    let (from, written) = (ends.len(), found.len());
    ends.set_len(from + done);
    ends[from..].iter_mut().for_each(|end| *end += written);
    found.set_len(ends.last().copied().unwrap_or(0));
}

/// The refusal, with nothing found.
fn none_of<T>(found: &mut Vec<T>, ends: &mut Vec<usize>, refusal: Refusal) -> Result<(), Refusal> {
    found.clear();
    ends.clear();
    Err(refusal)
}

/// Whether an error is that of one content or string, so that what was found before it stays.
fn is_of_one(error: Error) -> bool {
    matches!(
        error,
        Error::NoContent | Error::BlankLine | Error::References | Error::NoString
    )
}

/// Where the elements of one of many stand, by its number.
pub(crate) fn range_of(ends: &[usize], number: usize) -> Option<Range<usize>> {
    let end = *ends.get(number)?;
    let start = number.checked_sub(1).map_or(0, |before| ends[before]);
    Some(start..end)
}
