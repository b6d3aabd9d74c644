//! How secrets end: records that are overwritten with zeros when they are dropped, and the stack that is overwritten after each call. With
//! `ffi`, the only unsafe code of this crate.

#[cfg(all(target_arch = "x86_64", not(treadlewisp_wipe_in_rust)))]
use core::arch::asm;
use core::hint::black_box;
use core::mem::{align_of, size_of};
use core::ptr::{from_mut, from_ref, write_volatile};
use core::sync::atomic::{compiler_fence, Ordering};

use crate::card::Card;
#[cfg(all(target_arch = "x86_64", not(treadlewisp_wipe_in_rust)))]
use crate::lengths::PAGE_BYTES;
use crate::lengths::{CARD_BYTES, SESSION_BYTES, SLOT_BYTES, STACK_WIPE_BYTES};
use crate::parts::Slot;
use crate::session::Session;

/// Overwrites bytes with zeros, also where nobody reads them afterwards: for a buffer, command or supply that held a secret. Cards and
/// sessions do it themselves when they are dropped.
///
/// ```
/// let mut pin = *b"123456";
/// treadlewisp::wipe(&mut pin);
/// assert_eq!(pin, [0; 6]);
/// ```
pub fn wipe(bytes: &mut [u8]) {
    for byte in bytes {
        // SAFETY: the byte is there to write, borrowed alone.
        unsafe { write_volatile(byte, 0) }
    }
    compiler_fence(Ordering::SeqCst);
}

/// Overwrites the stack below the caller's frame with zeros, [`STACK_WIPE_BYTES`] bytes, which the thread must have left. Each call of the
/// library ends with it; it is here for what the caller's own functions leave there.
///
/// What it does not reach: the caller's own frame, registers, the heap, and pages that the system has written to disk. On x86-64 it begins at
/// the stack pointer; elsewhere it is an array in a frame of its own, and between the caller's frame and the array some bytes may stay.
#[cfg(all(target_arch = "x86_64", not(treadlewisp_wipe_in_rust)))]
#[inline(never)]
pub fn wipe_stack() {
    // SAFETY: the block takes room on the stack, fills it with zeros and gives it back. What it overwrites lies below all that is in use: a
    // block without `nostack` may do so. It touches the pages from above, so a stack that is too small ends at its guard page.
    unsafe {
        asm!(
            "2:",
            "sub rsp, {page_bytes}",
            "mov qword ptr [rsp], 0",
            "dec rcx",
            "jnz 2b",
            "mov rdi, rsp",
            "xor eax, eax",
            "mov ecx, {words}",
            "rep stosq",
            "add rsp, {bytes}",
            page_bytes = const PAGE_BYTES,
            words = const STACK_WIPE_BYTES / WORD_BYTES,
            bytes = const STACK_WIPE_BYTES,
            inout("rcx") STACK_WIPE_BYTES / PAGE_BYTES => _,
            out("rdi") _,
            out("rax") _,
        );
    }
}

/// What one step of `rep stosq` writes, in bytes.
#[cfg(all(target_arch = "x86_64", not(treadlewisp_wipe_in_rust)))]
const WORD_BYTES: usize = 8;

/// Overwrites the stack below the caller's frame with zeros, [`STACK_WIPE_BYTES`] bytes, which the thread must have left. Each call of the
/// library ends with it; it is here for what the caller's own functions leave there.
///
/// What it does not reach: the caller's own frame, registers, the heap, and pages that the system has written to disk. It is an array in a frame
/// of its own, and between the caller's frame and the array some bytes may stay.
#[cfg(any(not(target_arch = "x86_64"), treadlewisp_wipe_in_rust))]
#[inline(never)]
pub fn wipe_stack() {
    let mut frame = core::mem::MaybeUninit::<[u64; STACK_WIPE_BYTES / size_of::<u64>()]>::uninit();
    let start = frame.as_mut_ptr().cast::<u64>();
    // From above, so that a stack that is too small ends at its guard page.
    for at in (0..STACK_WIPE_BYTES / size_of::<u64>()).rev() {
        // SAFETY: these 8 bytes are the array's own.
        unsafe { write_volatile(start.add(at), 0) }
    }
}

/// Makes a call whose frames may hold secrets, and wipes the stack that it used. The result is written to its place by the call itself: no
/// frame that stays holds a copy of it.
pub(crate) fn wiped<R>(call: impl FnOnce() -> R) -> R {
    let _end = StackWipe;
    lower(call)
}

/// Wipes the stack when it is dropped.
struct StackWipe;

impl Drop for StackWipe {
    fn drop(&mut self) {
        wipe_stack();
    }
}

/// How much lower a call's frames begin than those of the wipe, in bytes: more than the frames of `drop`, which are not wiped.
const LOWER_BYTES: usize = 256;

/// Room on the stack that is in use until it is dropped.
struct Room([u8; LOWER_BYTES]);

impl Drop for Room {
    fn drop(&mut self) {
        black_box(&self.0);
    }
}

#[inline(never)]
fn lower<R>(call: impl FnOnce() -> R) -> R {
    let _room = Room([0; LOWER_BYTES]);
    apart(call)
}

/// In a frame of its own, below the room.
#[inline(never)]
fn apart<R>(call: impl FnOnce() -> R) -> R {
    call()
}

/// Whether two records have the same bytes. All of them are looked at, wherever they differ.
fn same(one: &[u8], other: &[u8]) -> bool {
    let differences = one.iter().zip(other).fold(0, |all, (a, b)| all | (a ^ b));
    one.len() == other.len() && black_box(differences) == 0
}

/// A record of N bytes that holds secrets.
///
/// # Safety
///
/// The type is `repr(C)`, each field is a byte, an array of bytes, or such a record or an array of them, and its size is N bytes. So it has no
/// padding and needs no alignment, and any N bytes are one.
pub(crate) unsafe trait Record<const N: usize>: Sized {
    /// The record of these bytes.
    fn of(bytes: &[u8; N]) -> Self {
        // SAFETY: N bytes are there to read, and any N bytes are a record.
        unsafe { from_ref(bytes).cast::<Self>().read() }
    }

    /// The record's bytes.
    fn bytes(&self) -> &[u8; N] {
        // SAFETY: the record is N bytes without padding, to read as long as it is borrowed.
        unsafe { &*from_ref(self).cast() }
    }

    /// The record's bytes, to write; any are a record.
    fn bytes_mut(&mut self) -> &mut [u8; N] {
        // SAFETY: the record is N bytes without padding, borrowed alone, and any N bytes are a record.
        unsafe { &mut *from_mut(self).cast() }
    }
}

/// Copying, comparing and ending of a record that holds secrets. Its length is asserted where the type is declared.
macro_rules! holds_secrets {
    ($name:ident, $bytes:ident) => {
        const _: () = assert!(
            size_of::<$name>() == $bytes && align_of::<$name>() == 1,
            "bytes alone, without padding"
        );

        // SAFETY: the type is repr(C) and made of bytes alone.
        unsafe impl Record<$bytes> for $name {}

        impl Clone for $name {
            fn clone(&self) -> $name {
                wiped(|| $name::of(self.bytes()))
            }
        }

        /// All bytes are looked at, wherever the first difference is. Nothing is claimed about time.
        impl PartialEq for $name {
            fn eq(&self, other: &$name) -> bool {
                same(self.bytes(), other.bytes())
            }
        }

        impl Eq for $name {}

        /// Every byte is overwritten with zero.
        impl Drop for $name {
            fn drop(&mut self) {
                wipe(self.bytes_mut());
            }
        }
    };
}

holds_secrets!(Card, CARD_BYTES);
holds_secrets!(Session, SESSION_BYTES);
holds_secrets!(Slot, SLOT_BYTES);
