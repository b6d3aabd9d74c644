//! A painted stack for one call, and the search for what the call has left on it. The search runs on the test's own stack, so it leaves
//! nothing on this one. Lengths are in bytes.

use std::arch::asm;

const STACK_BYTES: usize = 256 * 1024;
const STACK_ALIGNMENT: usize = 16;
const PAINT: u8 = 0xC9;
/// The least piece of a secret that counts; a shorter secret counts whole.
const PIECE_BYTES: usize = 8;

/// What is on the stack after a call: from the lowest byte that is not paint to the stack's end.
pub struct Left {
    pub used: Vec<u8>,
}

/// What a call on the painted stack goes through: a pointer to a call fits a register, the call itself does not.
type Call<'a> = &'a mut dyn FnMut();

extern "C" fn enter(call: &mut Call) {
    call();
}

/// Makes the call on a painted stack. It must not panic.
pub fn on_stack(mut call: Call) -> Left {
    let mut stack = vec![PAINT; STACK_BYTES];
    let end = stack.as_mut_ptr_range().end as usize / STACK_ALIGNMENT * STACK_ALIGNMENT;
    // SAFETY: the block moves to memory that nothing else uses, calls a function of the C convention there, and moves back. The call is
    // borrowed for that time; r12 is kept by the function called.
    unsafe {
        asm!(
            "mov r12, rsp",
            "mov rsp, rsi",
            "call {enter}",
            "mov rsp, r12",
            enter = sym enter,
            in("rdi") &mut call,
            in("rsi") end,
            out("r12") _,
            clobber_abi("C"),
        );
    }
    let lowest = stack.iter().position(|&byte| byte != PAINT).unwrap_or(STACK_BYTES);
    Left {
        used: stack.split_off(lowest),
    }
}

impl Left {
    /// How many bytes of zeros begin at the lowest that was used.
    pub fn lowest_zeros(&self) -> usize {
        self.used.iter().take_while(|&&byte| byte == 0).count()
    }

    /// How many pieces of a secret are there.
    pub fn pieces(&self, secret: &[u8]) -> usize {
        let least = secret.len().min(PIECE_BYTES);
        let (mut found, mut at) = (0, self.lowest_zeros().saturating_sub(least));
        while let Some(piece) = self.used.get(at..at + least) {
            let may_begin = secret.contains(&piece[0]);
            let begins = may_begin
                .then(|| secret.windows(least).position(|window| window == piece))
                .flatten();
            found += usize::from(begins.is_some());
            at += begins.map_or(1, |from| same_bytes(&self.used[at..], &secret[from..]));
        }
        found
    }
}

/// How many bytes two texts have in common from their start.
fn same_bytes(one: &[u8], other: &[u8]) -> usize {
    one.iter().zip(other).take_while(|(a, b)| a == b).count()
}
