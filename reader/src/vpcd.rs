//! The bytes between the driver vpcd and its card. The driver listens, the card connects. Either side sends messages of this form:
//!
//! ```text
//! offset  | 0                                | 2
//! message | n, in bytes, high byte first (2) | content (n)
//! ```
//!
//! A content of one byte from the driver is an order: 00 power off, 01 power on, 02 reset, 04 the answer to reset is wanted. Any other content is
//! a command for the card. The card answers 04 and commands, and nothing else. Lengths are in bytes.
//!
//! So a command of one byte, which some client may send, is an order here, and its client waits for an answer that does not come. A driver that
//! waits so asks for nothing more, while others ask every 0.4 seconds whether the card is there: the silence shows it (`Next::Silence`).

use std::io::{self, ErrorKind, Read, Write};
use std::net::{Ipv4Addr, TcpStream};
use std::os::linux::net::TcpStreamExt;
use std::time::Duration;

/// Length of a message's head, in bytes.
const HEAD_BYTES: usize = 2;

/// What the driver wants.
pub enum Message {
    PowerOff,
    PowerOn,
    Reset,
    Atr,
    Command(Vec<u8>),
}

/// What comes next over a connection.
pub enum Next {
    Message(Message),
    /// The driver has gone, perhaps in the middle of a message.
    Gone,
    /// Nothing came within the time.
    Silence,
}

/// A connection to the driver.
pub struct Link(TcpStream);

impl Link {
    /// To a driver on this machine.
    pub fn connect(port: u16) -> io::Result<Link> {
        let stream = TcpStream::connect((Ipv4Addr::LOCALHOST, port))?;
        stream.set_nodelay(true)?;
        Ok(Link(stream))
    }

    /// The next message; with a patience, it has to begin within that time.
    pub fn next(&mut self, patience: Option<Duration>) -> io::Result<Next> {
        let mut head = [0; HEAD_BYTES];
        self.0.set_read_timeout(patience)?;
        match self.filled(&mut head) {
            Ok(true) => {}
            Ok(false) => return Ok(Next::Gone),
            Err(why) if matches!(why.kind(), ErrorKind::WouldBlock | ErrorKind::TimedOut) => return Ok(Next::Silence),
            Err(why) => return Err(why),
        }
        // The driver sends head and content apart, and its system keeps the content back until the head is acknowledged. Without this that takes
        // 40 milliseconds.
        self.0.set_quickack(true)?;
        self.0.set_read_timeout(None)?;
        let mut content = vec![0; usize::from(u16::from_be_bytes(head))];
        Ok(match self.filled(&mut content)? {
            true => Next::Message(Message::of(content)),
            false => Next::Gone,
        })
    }

    /// Sends the answer to reset, or a command's answer, in one piece.
    pub fn send(&mut self, content: &[u8]) -> io::Result<()> {
        let count = u16::try_from(content.len()).map_err(io::Error::other)?;
        self.0.write_all(&[&count.to_be_bytes()[..], content].concat())
    }

    /// Whether so many bytes came before the driver went.
    fn filled(&mut self, bytes: &mut [u8]) -> io::Result<bool> {
        match self.0.read_exact(bytes) {
            Ok(()) => Ok(true),
            Err(why) if is_gone(&why) => Ok(false),
            Err(why) => Err(why),
        }
    }
}

impl Message {
    fn of(content: Vec<u8>) -> Message {
        match content[..] {
            [0x00] => Message::PowerOff,
            [0x01] => Message::PowerOn,
            [0x02] => Message::Reset,
            [0x04] => Message::Atr,
            _ => Message::Command(content),
        }
    }
}

/// Whether the other end has closed or lost the connection.
pub fn is_gone(why: &io::Error) -> bool {
    matches!(
        why.kind(),
        ErrorKind::UnexpectedEof | ErrorKind::ConnectionReset | ErrorKind::ConnectionAborted | ErrorKind::BrokenPipe
    )
}
