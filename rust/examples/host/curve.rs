//! The curve secp256k1, by libsecp256k1 (Debian's package libsecp256k1-dev). Each function lends its arguments, checks what the library
//! gives back, and keeps nothing. Lengths are in bytes.

use std::ffi::{c_int, c_uint, c_void};
use std::io;
use std::ptr::{null, null_mut};

use treadlewisp::{HASH_BYTES, KEY_BYTES, PUBLIC_KEY_BYTES};

use crate::crypto::{random, Secret};

/// Length of a point in its short form, in bytes: 02 or 03, and x.
pub const COMPRESSED_BYTES: usize = 1 + KEY_BYTES;
/// Length of what the library keeps of a point, and of a signature, in bytes.
const KEPT_BYTES: usize = 64;

const CONTEXT_NONE: c_uint = 1;
const COMPRESSED: c_uint = 1 << 1 | 1 << 8;
const UNCOMPRESSED: c_uint = 1 << 1;
/// What the library's functions give where they are done.
const DONE: c_int = 1;

/// The library's context; only its address is used here.
#[repr(C)]
struct Context {
    _kept: [u8; 0],
}
/// `secp256k1_pubkey`, and `secp256k1_ecdsa_signature`.
#[repr(C)]
struct Point([u8; KEPT_BYTES]);
#[repr(C)]
struct Signature([u8; KEPT_BYTES]);

/// `secp256k1_ecdh_hash_function`: what makes the secret out of the shared point's x and y.
type EcdhFunction = extern "C" fn(secret: *mut u8, x: *const u8, y: *const u8, data: *mut c_void) -> c_int;

#[link(name = "secp256k1")]
extern "C" {
    fn secp256k1_context_create(flags: c_uint) -> *mut Context;
    fn secp256k1_context_randomize(context: *mut Context, seed: *const u8) -> c_int;
    fn secp256k1_context_destroy(context: *mut Context);
    fn secp256k1_ec_pubkey_create(context: *const Context, point: *mut Point, private_key: *const u8) -> c_int;
    fn secp256k1_ec_pubkey_parse(context: *const Context, point: *mut Point, bytes: *const u8, count: usize) -> c_int;
    fn secp256k1_ec_pubkey_serialize(context: *const Context, to: *mut u8, count: *mut usize, point: *const Point, form: c_uint) -> c_int;
    fn secp256k1_ec_seckey_tweak_add(context: *const Context, private_key: *mut u8, number: *const u8) -> c_int;
    fn secp256k1_ecdh(
        context: *const Context,
        secret: *mut u8,
        point: *const Point,
        private_key: *const u8,
        function: EcdhFunction,
        data: *mut c_void,
    ) -> c_int;
    fn secp256k1_ecdsa_sign(
        context: *const Context,
        signature: *mut Signature,
        hash: *const u8,
        private_key: *const u8,
        nonce_function: *const c_void,
        nonce_data: *const c_void,
    ) -> c_int;
    fn secp256k1_ecdsa_signature_serialize_compact(context: *const Context, to: *mut u8, signature: *const Signature) -> c_int;
    fn secp256k1_ecdsa_signature_parse_der(context: *const Context, signature: *mut Signature, der: *const u8, count: usize) -> c_int;
    fn secp256k1_ecdsa_verify(context: *const Context, signature: *const Signature, hash: *const u8, point: *const Point) -> c_int;
}

/// The library's default hashes the point. Keycard takes x as it is.
extern "C" fn x_alone(secret: *mut u8, x: *const u8, _y: *const u8, _data: *mut c_void) -> c_int {
    // SAFETY: the library lends 32 bytes of x, and the 32 bytes that `Curve::ecdh` gave it to write; they are apart.
    unsafe { secret.copy_from_nonoverlapping(x, KEY_BYTES) };
    DONE
}

/// The library's context, blinded by a random number.
pub struct Curve(*mut Context);

impl Curve {
    pub fn new() -> io::Result<Curve> {
        let seed = random::<KEY_BYTES>()?;
        // SAFETY: the flag is one of the library's; the context is new, not null and used by nobody else, and the seed has 32 bytes.
        unsafe {
            let context = secp256k1_context_create(CONTEXT_NONE);
            assert!(!context.is_null(), "no memory");
            assert_eq!(secp256k1_context_randomize(context, seed.as_ptr()), DONE);
            Ok(Curve(context))
        }
    }

    /// A new private key.
    pub fn new_key(&self) -> io::Result<Secret> {
        loop {
            let key = Secret(random()?);
            if self.public_key(&key).is_some() {
                return Ok(key);
            }
        }
    }

    /// The public key, 04 x y; none where the private key is 0, or q or more.
    pub fn public_key(&self, private_key: &Secret) -> Option<[u8; PUBLIC_KEY_BYTES]> {
        self.serialized(&self.point_of(private_key)?, UNCOMPRESSED)
    }

    /// The public key in its short form, 02 or 03, and x.
    pub fn compressed(&self, private_key: &Secret) -> Option<[u8; COMPRESSED_BYTES]> {
        self.serialized(&self.point_of(private_key)?, COMPRESSED)
    }

    /// The ECDH secret: x of private key times point; none where the point is not on the curve.
    pub fn ecdh(&self, private_key: &Secret, point: &[u8; PUBLIC_KEY_BYTES]) -> Option<Secret> {
        let (point, mut secret) = (self.parsed(point)?, Secret([0; KEY_BYTES]));
        // SAFETY: context and point are the library's, key and secret have 32 bytes each, and the function is of the type asked for.
        let done = unsafe { secp256k1_ecdh(self.0, secret.0.as_mut_ptr(), &point, private_key.0.as_ptr(), x_alone, null_mut()) };
        (done == DONE).then_some(secret)
    }

    /// The private key plus a number, modulo q; none where the number is q or more, or the sum 0.
    pub fn sum(&self, private_key: &Secret, number: &[u8; KEY_BYTES]) -> Option<Secret> {
        let mut sum = Secret(private_key.0);
        // SAFETY: the context is the library's, key and number have 32 bytes each.
        let done = unsafe { secp256k1_ec_seckey_tweak_add(self.0, sum.0.as_mut_ptr(), number.as_ptr()) };
        (done == DONE).then_some(sum)
    }

    /// r and s of an ECDSA signature: the lower s, with the nonce of RFC 6979, as the library makes it where none is given.
    pub fn sign(&self, private_key: &Secret, hash: &[u8; HASH_BYTES]) -> Option<([u8; KEY_BYTES], [u8; KEY_BYTES])> {
        let (mut signature, mut numbers) = (Signature([0; KEPT_BYTES]), [0; 2 * KEY_BYTES]);
        // SAFETY: the context is the library's, hash and key have 32 bytes each, the numbers 64; signature and numbers are borrowed alone.
        let done = unsafe {
            let signed = secp256k1_ecdsa_sign(self.0, &mut signature, hash.as_ptr(), private_key.0.as_ptr(), null(), null());
            signed & secp256k1_ecdsa_signature_serialize_compact(self.0, numbers.as_mut_ptr(), &signature)
        };
        let (r, s) = (numbers.first_chunk()?, numbers.last_chunk()?);
        (done == DONE).then_some((*r, *s))
    }

    /// Whether this signature, in DER, is one of the hash by the key of the point. One with the higher s is none.
    pub fn verifies(&self, point: &[u8; PUBLIC_KEY_BYTES], hash: &[u8; HASH_BYTES], der: &[u8]) -> bool {
        let Some(point) = self.parsed(point) else { return false };
        let mut signature = Signature([0; KEPT_BYTES]);
        // SAFETY: context and point are the library's, the hash has 32 bytes, and DER is given with its length.
        unsafe {
            secp256k1_ecdsa_signature_parse_der(self.0, &mut signature, der.as_ptr(), der.len()) == DONE
                && secp256k1_ecdsa_verify(self.0, &signature, hash.as_ptr(), &point) == DONE
        }
    }

    fn point_of(&self, private_key: &Secret) -> Option<Point> {
        let mut point = Point([0; KEPT_BYTES]);
        // SAFETY: the context is the library's, the key has 32 bytes, and the point is borrowed alone.
        let done = unsafe { secp256k1_ec_pubkey_create(self.0, &mut point, private_key.0.as_ptr()) };
        (done == DONE).then_some(point)
    }

    fn parsed(&self, bytes: &[u8; PUBLIC_KEY_BYTES]) -> Option<Point> {
        let mut point = Point([0; KEPT_BYTES]);
        // SAFETY: the context is the library's, the bytes are given with their length, and the point is borrowed alone.
        let done = unsafe { secp256k1_ec_pubkey_parse(self.0, &mut point, bytes.as_ptr(), bytes.len()) };
        (done == DONE).then_some(point)
    }

    fn serialized<const N: usize>(&self, point: &Point, form: c_uint) -> Option<[u8; N]> {
        let (mut bytes, mut count) = ([0; N], N);
        // SAFETY: context and point are the library's; the bytes are given with their length, borrowed alone.
        let done = unsafe { secp256k1_ec_pubkey_serialize(self.0, bytes.as_mut_ptr(), &mut count, point, form) };
        (done == DONE && count == N).then_some(bytes)
    }
}

impl Drop for Curve {
    fn drop(&mut self) {
        // SAFETY: the context was made by `new` and is not used afterwards.
        unsafe { secp256k1_context_destroy(self.0) }
    }
}
