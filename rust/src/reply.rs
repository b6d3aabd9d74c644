//! An answer: response data and status word.

use core::fmt;

use crate::buffer::Buffer;
use crate::lengths::{ANSWER_ROOM_BYTES, STATUS_BYTES};
use crate::secrets::wiped;
use crate::status::StatusWord;

/// An answer: response data and a status word. It is what a card sends, or what UNSEAL has opened of it; [`Card::serve`](crate::Card::serve)
/// gives the first, [`Session::exchange`](crate::Session::exchange) the second.
///
/// The data may be a key that EXPORT gives, or the words of a recovery phrase: the answer is overwritten with zeros when it is dropped, and
/// `Debug` shows the status word alone.
///
/// ```
/// use treadlewisp::{Answer, StatusWord};
/// let answer = Answer::from_bytes(&[0x01, 0x02, 0x90, 0x00]).expect("2 to 258 bytes");
/// assert_eq!((answer.data(), answer.status()), (&[0x01, 0x02][..], StatusWord::SUCCESS));
/// assert!(Answer::from_bytes(&[0x90]).is_none());
/// ```
#[must_use = "an answer is there to be looked at"]
pub struct Answer {
    bytes: Buffer<ANSWER_ROOM_BYTES>,
    fault_offset: Option<usize>,
}

impl Answer {
    /// The answer of these bytes, as a terminal receives them; none where they are not 2 to 258 bytes.
    #[must_use]
    pub fn from_bytes(bytes: &[u8]) -> Option<Answer> {
        wiped(|| match bytes.len() {
            STATUS_BYTES.. => Buffer::joined(&[bytes]).map(|bytes| Answer::of(bytes, None)),
            _ => None,
        })
    }

    /// What ANSWER or UNSEAL wrote, which has at least a status word; and the fault offset, if ANSWER told one.
    pub(crate) fn of(bytes: Buffer<ANSWER_ROOM_BYTES>, fault_offset: Option<usize>) -> Answer {
        Answer { bytes, fault_offset }
    }

    /// The whole answer, as it is sent.
    #[must_use]
    pub fn bytes(&self) -> &[u8] {
        self.bytes.bytes()
    }

    /// The response data: all but the status word.
    #[must_use]
    pub fn data(&self) -> &[u8] {
        self.split().0
    }

    /// The status word. That of a sealed answer which is not opened yet says nothing: it is always 9000.
    #[must_use]
    pub fn status(&self) -> StatusWord {
        StatusWord(u16::from_be_bytes(self.split().1))
    }

    /// The fault offset: where LOAD's data are no sequence of fields, how many of their bytes are before the tag of the faulty field
    /// ([`Answered::fault_offset`](crate::Answered::fault_offset)). It is not part of the bytes that are sent, so an answer that a terminal received
    /// has none; one that [`Card::serve`](crate::Card::serve) gives has it, and so has that answer once
    /// [`Session::exchange`](crate::Session::exchange) has opened it in the same program.
    ///
    /// ```
    /// use treadlewisp::Answer;
    /// let received = Answer::from_bytes(&[0x6A, 0x80]).expect("2 to 258 bytes");
    /// assert_eq!(received.fault_offset(), None);
    /// ```
    #[must_use]
    pub fn fault_offset(&self) -> Option<usize> {
        self.fault_offset
    }

    fn split(&self) -> (&[u8], [u8; STATUS_BYTES]) {
        match self.bytes().split_last_chunk() {
            Some((data, status)) => (data, *status),
            None => (&[], [0; STATUS_BYTES]),
        }
    }
}

/// The status word, how many bytes of data there are, and the fault offset.
impl fmt::Debug for Answer {
    fn fmt(&self, f: &mut fmt::Formatter<'_>) -> fmt::Result {
        f.debug_struct("Answer")
            .field("status", &format_args!("{}", self.status()))
            .field("data_bytes", &self.data().len())
            .field("fault_offset", &self.fault_offset)
            .finish_non_exhaustive()
    }
}
