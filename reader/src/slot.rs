//! The slot of the reader: the card is in it as long as the driver is connected. Power-on, power-off and reset are RESET, and so is a driver
//! that goes. Lengths are in bytes.

use std::io::ErrorKind;
use std::thread::sleep;
use std::time::Duration;

use crate::atr::ATR;
use crate::device::Device;
use crate::tag::Tag;
use crate::vpcd::{is_gone, Link, Message, Next};
use crate::{say, Outcome};

/// How long to wait before the driver is asked for again.
const PAUSE: Duration = Duration::from_millis(200);
/// How long a driver may be silent after an order. pcscd asks every 0.4 seconds whether the card is there.
const SILENCE: Duration = Duration::from_secs(3);
/// How long a card is out of the reader, so that pcscd sees it.
const PULLED: Duration = Duration::from_secs(1);

/// A card, and the port of the driver that it is put into.
pub struct Slot {
    port: u16,
    device: Device,
    tag: Tag,
}

impl Slot {
    pub fn new(port: u16, device: Device) -> Slot {
        Slot {
            port,
            device,
            tag: Tag::default(),
        }
    }

    /// Puts the card in, and in again whenever the driver has gone or waits for nothing. It ends only where the card cannot go on: what is left then
    /// is a new start, from the disk.
    pub fn serve(&mut self) -> Outcome<()> {
        loop {
            let mut link = self.connected()?;
            let is_silent = self.session(&mut link)?;
            drop(link);
            self.reset()?;
            if is_silent {
                say("the reader is silent after an order: the card is pulled, and put in again");
                sleep(PULLED);
            } else {
                say("the reader has gone");
            }
        }
    }

    /// A connection, once the driver listens.
    fn connected(&self) -> Outcome<Link> {
        let mut told = false;
        loop {
            match Link::connect(self.port) {
                Ok(link) => return Ok(link),
                Err(why) if why.kind() != ErrorKind::ConnectionRefused => return Err(why.into()),
                Err(_) if !told => {
                    say(&format!(
                        "nothing listens at port {} of this machine: waiting for pcscd with the driver vpcd",
                        self.port
                    ));
                    told = true;
                }
                Err(_) => sleep(PAUSE),
            }
        }
    }

    /// All messages of one connection, until the driver goes, or is silent after an order; whether it is silent. The first message shows that the
    /// driver has taken this card: it has one at a time.
    fn session(&mut self, link: &mut Link) -> Outcome<bool> {
        let (mut told, mut patience) = (false, None);
        loop {
            let message = match link.next(patience.take())? {
                Next::Message(message) => message,
                Next::Gone => return Ok(false),
                Next::Silence => return Ok(true),
            };
            if !told {
                say(&format!("the card is in the reader at port {}", self.port));
                told = true;
            }
            let sent = match message {
                Message::PowerOff | Message::PowerOn | Message::Reset => {
                    patience = Some(SILENCE);
                    self.reset()?;
                    continue;
                }
                Message::Atr => link.send(&ATR),
                Message::Command(command) => link.send(&self.answer(&command)?),
            };
            match sent {
                Err(why) if is_gone(&why) => return Ok(false),
                done => done?,
            }
        }
    }

    /// The card loses its power, or is switched on: no channel, no verified PIN, no application selected.
    fn reset(&mut self) -> Outcome<()> {
        self.tag = Tag::default();
        Ok(self.device.card.reset()?)
    }

    /// The card's answer, which is on the disk before it is here. Where a LOAD's data are at fault, the place is shown to whoever stands there.
    fn answer(&mut self, command: &[u8]) -> Outcome<Vec<u8>> {
        if let Some(answer) = self.tag.answer(&mut self.device.card, command)? {
            return Ok(answer);
        }
        let answer = self.device.serve(command)?;
        if let Some(offset) = answer.fault_offset() {
            say(&format!("LOAD's data are at fault: field at byte {offset}"));
        }
        Ok(answer.bytes().to_vec())
    }
}
