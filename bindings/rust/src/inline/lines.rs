//! The pieces of paragraphs, by where their lines begin.

use super::Piece;
use crate::fill::number_of;
use crate::raw::{self, RawOutcome};
use crate::{Error, Refusal};

impl Piece {
    /// The pieces of a paragraph, made of where its lines begin: of the byte at which the paragraph's part of each line begins, after the markers of quotes and
    /// items. Spaces and tabs may follow there.
    ///
    /// There is a piece for each start. It begins at the first byte from there on that is no space or tab, and ends just after its line's ending; the last one
    /// ends before the whitespace at its end. The call looks at these lines alone, and does not test the document: if that is UTF-8, they are a text of it.
    ///
    /// # Errors
    ///
    /// `NoContent` for the first start that is inside a character, after the end of the document, or not on the line after that of the start before; `BlankLine`
    /// for the first one whose line has only spaces and tabs after it; `NoMemory`. `at` is the number of the start.
    ///
    /// ```
    /// use markdown_inline::inline::Piece;
    /// use markdown_inline::Error;
    /// # fn main() -> Result<(), markdown_inline::Refusal> {
    /// let pieces = Piece::of_lines("> a *b\n> c*", &[1, 8])?;
    /// assert_eq!(pieces, [Piece::from(2..7), Piece::from(9..11)]);
    /// let refusal = Piece::of_lines("a\nb", &[0, 1]).unwrap_err();
    /// assert_eq!((refusal.error, refusal.at), (Error::NoContent, Some(1)));
    /// # Ok(())
    /// # }
    /// ```
    pub fn of_lines<D: AsRef<[u8]> + ?Sized>(
        document: &D,
        starts: &[usize],
    ) -> Result<Vec<Piece>, Refusal> {
        let document = document.as_ref();
        let (mut pieces, mut outcome) = (Vec::new(), RawOutcome::default());
        pieces
            .try_reserve_exact(starts.len())
            .map_err(|_| Error::NoMemory)?;
        // SAFETY: each pointer goes with the length of its array, and nothing is kept.
        let status = unsafe {
            raw::markdown_inline_pieces_of_lines(
                document.as_ptr(),
                document.len(),
                starts.as_ptr(),
                starts.len(),
                pieces.as_mut_ptr(),
                pieces.capacity(),
                &mut outcome,
            )
        };
        if status != raw::DONE {
            return Err(Refusal {
                error: Error::of(status),
                at: number_of(outcome.blamed),
            });
        }
        // SAFETY: with this status so many stand at the front of the room.
        unsafe { pieces.set_len(outcome.done) };
        Ok(pieces)
    }
}
