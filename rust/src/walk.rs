//! WALK: how many fields a template holds, and where the first fault is.

use core::error::Error;
use core::fmt;

use crate::ffi;
use crate::refusal::Refusal;
use crate::secrets::wiped;

/// Why WALK is refused, and where: [`Refusal::Malformed`] or [`Refusal::TooDeep`], and the fault offset.
///
/// ```
/// use treadlewisp::{walk, Refusal};
/// let fault = walk(&[0x80, 0x01, 0x99, 0x81, 0x05]).expect_err("the second field ends beyond the input");
/// assert_eq!((fault.refusal, fault.offset), (Refusal::Malformed, 3));
/// assert_eq!(fault.to_string(), "refusal 4: the input is no sequence of fields; the field at byte 3");
/// ```
#[derive(Clone, Copy, PartialEq, Eq, Hash, Debug)]
#[non_exhaustive]
pub struct WalkFault {
    /// [`Refusal::Malformed`] or [`Refusal::TooDeep`].
    pub refusal: Refusal,
    /// The fault offset: how many bytes of the input are before the tag of the faulty field. Inside a template that is the inner field. It is
    /// under the input's length, and may be over 255.
    pub offset: usize,
}

impl fmt::Display for WalkFault {
    fn fmt(&self, f: &mut fmt::Formatter<'_>) -> fmt::Result {
        write!(f, "{}; the field at byte {}", self.refusal, self.offset)
    }
}

impl Error for WalkFault {
    fn source(&self) -> Option<&(dyn Error + 'static)> {
        Some(&self.refusal)
    }
}

/// The refusal without its place.
impl From<WalkFault> for Refusal {
    fn from(fault: WalkFault) -> Refusal {
        fault.refusal
    }
}

/// WALK: how many fields that are not templates the input holds. The count is in fields; the input may have any length in bytes.
///
/// Parts that it accepts, joined, count the sum of their fields.
///
/// # Errors
///
/// [`WalkFault`], by the first fault from left to right: [`Refusal::Malformed`] where a field's length is cut off or badly formed or its end
/// lies beyond its template or the input, [`Refusal::TooDeep`] where a template is at depth 5. It has the fault offset, in bytes from the input's
/// start to the tag of that field.
///
/// ```
/// use treadlewisp::{walk, Refusal};
/// assert_eq!(walk(&[0xA1, 0x05, 0x80, 0x01, 0x99, 0x81, 0x00]), Ok(2));
/// assert_eq!(walk(&[0xA1, 0x00]), Ok(0));
///
/// // A length under 128 has one byte: 81 05 is badly formed. The field's tag is at byte 0, or inside of A1 at byte 2.
/// let fault = |input: &[u8]| walk(input).map_err(|fault| (fault.refusal, fault.offset));
/// assert_eq!(fault(&[0x80, 0x81, 0x05]), Err((Refusal::Malformed, 0)));
/// assert_eq!(fault(&[0xA1, 0x03, 0x80, 0x81, 0x05]), Err((Refusal::Malformed, 2)));
///
/// let (one, two) = (&[0x80, 0x01, 0x99][..], &[0x81, 0x00, 0x82, 0x00][..]);
/// assert_eq!((walk(one), walk(two), walk(&[one, two].concat())), (Ok(1), Ok(2), Ok(3)));
/// ```
pub fn walk(input: &[u8]) -> Result<usize, WalkFault> {
    wiped(|| ffi::walk(input))
}
