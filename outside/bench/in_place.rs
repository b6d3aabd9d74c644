//! SEAL in place over AES by word tables: a baseline for SEAL alone that makes no list, where the model makes some. Lengths are in bytes.

use crate::sides::{Side, State};
use outside::ciphers::plain::{Block, Key, BLOCK_BYTES, KEY_BYTES};
use outside::ciphers::word_tables::Aes;
use outside::ffi::treadlewisp::Told;
use outside::model::engine::SEAL_ROOM_BYTES;
use outside::model::message::{command_head, HEADER_BYTES, MAX_DATA_BYTES};
use outside::model::status::NOT_REFUSED;

/// CLA INS P1 P2 and Lc, which come before the field.
const FRONT_BYTES: usize = HEADER_BYTES + 1;

pub struct InPlace {
    aes: Aes,
    state: State,
}

impl InPlace {
    pub fn new(state: &State) -> InPlace {
        InPlace {
            aes: Aes::new(),
            state: state.clone(),
        }
    }
}

impl Side for InPlace {
    fn begin(&mut self, state: &State) {
        self.state = state.clone();
    }

    fn state(&self) -> State {
        self.state.clone()
    }

    /// The head block lies in the MAC's place, directly before the ciphertext, until the MAC over both is there.
    fn seal(&mut self, header: &[u8; HEADER_BYTES], data: &[u8], buffer: &mut [u8]) -> Told {
        assert!(buffer.len() >= SEAL_ROOM_BYTES && data.len() <= MAX_DATA_BYTES);
        let (enc_key, after) = self.state.session.split_at_mut(KEY_BYTES);
        let (mac_key, iv) = after.split_at_mut(KEY_BYTES);
        let (enc_key, mac_key): (&Key, &Key) = ((&*enc_key).try_into().expect("32 bytes"), (&*mac_key).try_into().expect("32 bytes"));
        let first: Block = (&*iv).try_into().expect("16 bytes");

        let field_bytes = BLOCK_BYTES + (data.len() / BLOCK_BYTES + 1) * BLOCK_BYTES;
        let (front, after) = buffer.split_at_mut(FRONT_BYTES);
        let field = &mut after[..field_bytes];
        field[..BLOCK_BYTES].copy_from_slice(&command_head(*header, field_bytes));
        let text = &mut field[BLOCK_BYTES..];
        text[..data.len()].copy_from_slice(data);
        text[data.len()] = 0x80;
        text[data.len() + 1..].fill(0);
        self.aes.cbc_encrypt(enc_key, &first, text);
        let mac = self.aes.cbc_mac(mac_key, field);
        field[..BLOCK_BYTES].copy_from_slice(&mac);
        front[..HEADER_BYTES].copy_from_slice(header);
        front[HEADER_BYTES] = field_bytes as u8;
        iv.copy_from_slice(&mac);
        Told {
            refusal: NOT_REFUSED,
            count: FRONT_BYTES + field_bytes,
        }
    }

    fn answer(&mut self, _: &[u8], _: &mut [u8]) -> Told {
        unreachable!("SEAL alone is measured in place")
    }

    fn unseal(&mut self, _: &[u8], _: &mut [u8]) -> Told {
        unreachable!("SEAL alone is measured in place")
    }

    fn write(&mut self, _: &mut [u8]) -> Told {
        unreachable!("SEAL alone is measured in place")
    }

    fn read(&mut self, _: &[u8]) -> Told {
        unreachable!("SEAL alone is measured in place")
    }

    fn walk(&mut self, _: &[u8]) -> Told {
        unreachable!("SEAL alone is measured in place")
    }
}
