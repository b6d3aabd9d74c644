//! The engine from tables on messages: `cbc_encrypt_and_mac` gives what encrypting and then a MAC over head and ciphertext give, by the plain
//! implementation and by the plain engine of aes_c; `cbc_mac_by_tables` gives what `cbc_mac` gives. Lengths are in bytes.

use crate::{expect, Done, MOST_BLOCKS};
use outside::ciphers::plain::{Aes, Block, Key, BLOCK_BYTES};
use outside::ffi::aes_c;
use outside::random::choice::{array, byte, chance};
use outside::random::Random;

/// Messages as SEAL has them, beside those of every length.
const SHORT_MESSAGES: usize = 10_000;
const SHORT_MOST_BLOCKS: usize = 16;

/// The inputs of one call beside its data.
struct Inputs {
    key: Key,
    iv: Block,
    mac_key: Key,
    head: Block,
}

impl Inputs {
    fn new(random: &mut Random, same_keys: bool, same_head: bool) -> Inputs {
        let (key, iv) = (array(random), array(random));
        Inputs {
            key,
            iv,
            mac_key: if same_keys { key } else { array(random) },
            head: if same_head { iv } else { array(random) },
        }
    }
}

/// Random bytes, or one byte repeated: with zeros, one key and the IV as head, both chains begin with the same block.
fn text_of(random: &mut Random, blocks: usize) -> Vec<u8> {
    match random.below(4) {
        0 => vec![0; blocks * BLOCK_BYTES],
        1 => vec![byte(random); blocks * BLOCK_BYTES],
        _ => random.bytes(blocks * BLOCK_BYTES),
    }
}

/// What was done, for the line that is printed at the end.
#[derive(Default)]
pub struct Chains {
    done: Done,
    messages: usize,
    same_keys: usize,
    same_heads: usize,
}

impl Chains {
    /// Every number of blocks, with one key or two and with the IV as head or another block.
    pub fn every_length(&mut self, aes: &Aes, random: &mut Random) {
        for blocks in 0..=MOST_BLOCKS {
            for (same_keys, same_head) in [(false, false), (false, true), (true, false), (true, true)] {
                self.compare(aes, random, blocks, same_keys, same_head);
            }
        }
    }

    pub fn short(&mut self, aes: &Aes, random: &mut Random) {
        for _ in 0..SHORT_MESSAGES {
            let blocks = random.below(SHORT_MOST_BLOCKS + 1);
            let (same_keys, same_head) = (chance(random, 20), chance(random, 20));
            self.compare(aes, random, blocks, same_keys, same_head);
        }
    }

    fn compare(&mut self, aes: &Aes, random: &mut Random, blocks: usize, same_keys: bool, same_head: bool) {
        let inputs = Inputs::new(random, same_keys, same_head);
        let text = text_of(random, blocks);
        self.encrypt_and_mac(aes, random, &inputs, &text);
        if !text.is_empty() {
            self.mac_by_tables(aes, random, &inputs.key, &text);
        }
        self.messages += 1;
        self.same_keys += usize::from(same_keys);
        self.same_heads += usize::from(same_head);
    }

    fn encrypt_and_mac(&mut self, aes: &Aes, random: &mut Random, inputs: &Inputs, text: &[u8]) {
        let Inputs { key, iv, mac_key, head } = inputs;
        let (done, case) = (&mut self.done, self.messages);
        let mut wanted = text.to_vec();
        aes.cbc_encrypt(key, iv, &mut wanted);
        let joined = [&head[..], &wanted].concat();
        let wanted_mac = aes.cbc_mac(mac_key, &joined);

        let room: Block = array(random);
        let (enciphered, mac) = done.done_with_mac(random, case, text, &room, |buf, mac| {
            aes_c::cbc_encrypt_and_mac(key, iv, mac_key, head, buf, mac)
        });
        let is = |what: &str| format!("{what} of encrypting and MAC in one, {} blocks", text.len() / BLOCK_BYTES);
        expect(enciphered == wanted, case, &is("the ciphertext"));
        expect(mac == wanted_mac, case, &is("the MAC"));

        let enciphered = done.done(random, case, text, |b| aes_c::cbc_encrypt(key, iv, b));
        expect(enciphered == wanted, case, "the ciphertext by the plain engine");
        let mac = done.done(random, case, &room, |b| aes_c::cbc_mac(mac_key, &joined, b));
        expect(mac == wanted_mac, case, "the MAC by the plain engine");
        let mac = done.done(random, case, &room, |b| aes_c::cbc_mac_by_tables(mac_key, &joined, b));
        expect(mac == wanted_mac, case, "the MAC by tables, of head and ciphertext");
    }

    fn mac_by_tables(&mut self, aes: &Aes, random: &mut Random, key: &Key, text: &[u8]) {
        let room: Block = array(random);
        let mac = self
            .done
            .done(random, self.messages, &room, |b| aes_c::cbc_mac_by_tables(key, text, b));
        expect(mac == aes.cbc_mac(key, text), self.messages, "the MAC by tables");
    }

    pub fn print(&self) {
        println!(
            "  {} messages of 0 to {} bytes encrypted and MACed in one, {} with one key for both, {} with the IV as head: {} calls; each as encrypting, then the MAC",
            self.messages,
            MOST_BLOCKS * BLOCK_BYTES,
            self.same_keys,
            self.same_heads,
            self.done.calls
        );
    }
}
