//! The terminal's end of a call, and both ends in one.

use core::error::Error;
use core::fmt;

use crate::buffer::Buffer;
use crate::card::Card;
use crate::channel_command::ChannelCommand;
use crate::host::{Host, ServeError};
use crate::lengths::STATUS_BYTES;
use crate::refusal::Refusal;
use crate::reply::Answer;
use crate::secrets::wiped;
use crate::session::Session;
use crate::status::StatusWord;

/// Why an exchange gives no answer of the card. But for [`NotSealed`](ExchangeError::NotSealed) the channel has ended: SEAL has moved the
/// terminal's IV, and the card's has not followed or is not known to have. The terminal begins again with OPEN, MUTUAL and VERIFY.
#[derive(Clone, Copy, PartialEq, Eq, Debug)]
#[non_exhaustive]
pub enum ExchangeError<E> {
    /// SEAL was refused. Nothing was sent, and the session is as it was.
    NotSealed(Refusal),
    /// The command or its answer was lost on its way: this is the error of what carries them.
    NotCarried(E),
    /// The answer is plain, and this is its status word: 6982 or 6985 say that the card has no such channel any more, 6D00 or 6E00 that it does
    /// not know the command. No MAC vouches for it.
    Plain(StatusWord),
    /// The answer does not open: it is not that of the card to this command, in this session.
    NotGenuine,
}

impl<E: fmt::Display> fmt::Display for ExchangeError<E> {
    fn fmt(&self, f: &mut fmt::Formatter<'_>) -> fmt::Result {
        match self {
            ExchangeError::NotSealed(refusal) => write!(f, "the command was not sealed: {refusal}"),
            ExchangeError::NotCarried(why) => write!(f, "no answer came: {why}"),
            ExchangeError::Plain(status) => write!(f, "the card answered outside the channel: {status}"),
            ExchangeError::NotGenuine => write!(f, "the answer is not genuine"),
        }
    }
}

impl<E: Error + 'static> Error for ExchangeError<E> {
    fn source(&self) -> Option<&(dyn Error + 'static)> {
        match self {
            ExchangeError::NotSealed(refusal) => Some(refusal),
            ExchangeError::NotCarried(why) => Some(why),
            ExchangeError::Plain(_) | ExchangeError::NotGenuine => None,
        }
    }
}

impl Session {
    /// The terminal's end of one command over the channel: SEAL, `carry` to the card and back, UNSEAL. The answer is that inside the channel:
    /// its status word is the one that counts.
    ///
    /// `carry` is lent the sealed command and gives the card's answer; over a reader it is what sends and receives.
    ///
    /// # Errors
    ///
    /// [`ExchangeError`] says why there is no answer.
    ///
    /// ```
    /// use treadlewisp::{Answer, ChannelCommand, ExchangeError, Session, StatusWord};
    /// let mut session = Session::new(&[0x22; 32], &[0x33; 32], &[0x44; 16]);
    /// let command = ChannelCommand::status_tries();
    ///
    /// // A card that has no channel answers 6985, plain.
    /// let answer = session.exchange(&command, |sealed| {
    ///     assert_eq!(sealed.len(), 37);
    ///     Answer::from_bytes(&[0x69, 0x85]).ok_or("too short")
    /// });
    /// assert_eq!(answer.err(), Some(ExchangeError::Plain(StatusWord::CONDITIONS_NOT_MET)));
    /// ```
    pub fn exchange<E>(
        &mut self,
        command: &ChannelCommand,
        carry: impl FnOnce(&[u8]) -> Result<Answer, E>,
    ) -> Result<Answer, ExchangeError<E>> {
        wiped(|| {
            let sealed = command.seal(self).map_err(ExchangeError::NotSealed)?;
            let answer = carry(sealed.bytes()).map_err(ExchangeError::NotCarried)?;
            if answer.bytes().len() == STATUS_BYTES {
                return Err(ExchangeError::Plain(answer.status()));
            }
            let opened = Buffer::written(|room| self.unseal(answer.bytes(), room));
            opened
                .map(|opened| Answer::of(opened, answer.fault_offset()))
                .map_err(|_| ExchangeError::NotGenuine)
        })
    }
}

/// One command over the channel, with both ends in one program: SEAL, ASK, the host's supply, ANSWER, the host stores the record, UNSEAL. It is
/// [`Session::exchange`] over [`Card::serve`].
///
/// # Errors
///
/// [`ExchangeError`] says why there is no answer; [`ExchangeError::NotCarried`] has the host's [`ServeError`].
///
/// ```
/// use treadlewisp::*;
///
/// /// A host for commands that need no supply.
/// struct Shelf(Vec<u8>);
/// impl Host for Shelf {
///     type Error = &'static str;
/// #   fn init(&mut self, _: &Card, _: &[u8; 65]) -> Result<Supply, Self::Error> { Err("none") }
/// #   fn open(&mut self, _: &Card, _: u8, _: &[u8; 65]) -> Result<Supply, Self::Error> {
/// #       Ok(Supply::open(&OpenParts { enc_key: &[0x61; 32], mac_key: &[0x62; 32], salt: &[0x91; 32], iv: &[0x63; 16] }))
/// #   }
/// #   fn mutual(&mut self, _: &Card, _: &[u8; 32]) -> Result<Supply, Self::Error> { Ok(Supply::mutual(&[0x92; 32])) }
/// #   fn pair_first(&mut self, _: &Card, _: &[u8; 32]) -> Result<Supply, Self::Error> { Err("none") }
/// #   fn pair_final(&mut self, _: &Card, _: &[u8; 32]) -> Result<Supply, Self::Error> { Err("none") }
/// #   fn load(&mut self, _: &Card, _: LoadedKey) -> Result<Supply, Self::Error> { Err("none") }
/// #   fn derive(&mut self, _: &Card, _: &Path) -> Result<Supply, Self::Error> { Err("none") }
/// #   fn sign(&mut self, _: &Card, _: &[u8; 32]) -> Result<Supply, Self::Error> { Err("none") }
/// #   fn export(&mut self, _: &Card, _: &Path, _: ExportedKeys) -> Result<Supply, Self::Error> { Err("none") }
/// #   fn mnemonic(&mut self, _: &Card, _: Phrase) -> Result<Supply, Self::Error> { Err("none") }
///     fn store(&mut self, _: &Card, record: &[u8]) -> Result<(), Self::Error> {
///         Ok(self.0 = record.to_vec())
///     }
///     // The other methods are as in the example of `Host`.
/// }
///
/// # let slots = [&[0x01][..], &[0x52; 32], &[0x00; (SLOTS - 1) * SLOT_BYTES]].concat();
/// # let fields: [(u8, &[u8]); 13] = [(0x10, &[0x01]), (0x11, &[0x11; 16]), (0x12, &[0x04; 65]), (0x20, b"024680"), (0x21, b"918273645546"),
/// #     (0x22, &[0x51; 32]), (0x23, &[3, 5]), (0x24, &slots), (0x30, &[0]), (0x31, &[]), (0x32, &[]), (0x33, &[]), (0x34, &[])];
/// # let head = |tag: u8, content: &[u8]| [tag, (content.len() >> 8) as u8, content.len() as u8];
/// # let record: Vec<u8> = fields.iter().flat_map(|&(tag, content)| [&head(tag, content), content].concat()).collect();
/// // A paired card, with the PIN 024680, and OPEN; both ends have made the channel's keys.
/// let (mut card, mut host) = (Card::read(&record)?, Shelf(Vec::new()));
/// let opened = card.serve(&mut host, PlainCommand::open(0, &[0x04; 65]).bytes()).expect("OPEN");
/// assert_eq!(opened.status(), StatusWord::SUCCESS);
/// let mut session = Session::new(&[0x61; 32], &[0x62; 32], &[0x63; 16]);
///
/// let mut send = |command| exchange(&mut session, &mut card, &mut host, &command).expect("an answer");
/// assert_eq!(send(ChannelCommand::mutual(&[0x0E; 32])).data(), [0x92; 32]);
/// assert_eq!(send(ChannelCommand::verify(b"024681")).status(), StatusWord::TRIES_LEFT_2);
/// assert_eq!(send(ChannelCommand::verify(b"024680")).status(), StatusWord::SUCCESS);
/// assert_eq!(send(ChannelCommand::status_tries()).data(), [0xA3, 9, 2, 1, 3, 2, 1, 5, 1, 1, 0]);
/// # Ok::<(), Refusal>(())
/// ```
pub fn exchange<H: Host + ?Sized>(
    session: &mut Session,
    card: &mut Card,
    host: &mut H,
    command: &ChannelCommand,
) -> Result<Answer, ExchangeError<ServeError<H::Error>>> {
    session.exchange(command, |sealed| card.serve(host, sealed))
}
