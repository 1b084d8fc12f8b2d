//! libsrtp2 (`srtp.h` of version 2), as far as a stream of media packets needs it.

use super::{Answer, Link, Settings, MASTER_KEY, MASTER_SALT, PLAIN, SSRC, TAG_LENGTH};
use reference::refusal::Refusal;
use reference::replay::WINDOW_LENGTH;
use std::ffi::{c_char, c_int, c_uint, c_ulong, c_void, CStr};
use std::ptr;
use std::sync::Once;

#[repr(C)]
#[derive(Clone, Copy, Default)]
struct CryptoPolicy {
    cipher_type: u32,
    cipher_key_length: c_int,
    auth_type: u32,
    auth_key_length: c_int,
    auth_tag_length: c_int,
    services: c_uint,
}

#[repr(C)]
struct Policy {
    ssrc_type: c_uint,
    ssrc: c_uint,
    rtp: CryptoPolicy,
    rtcp: CryptoPolicy,
    key: *const u8,
    keys: *const c_void,
    key_count: c_ulong,
    deprecated_ekt: *const c_void,
    window_size: c_ulong,
    allow_repeat_tx: c_int,
    enciphered_extensions: *const c_int,
    enciphered_extension_count: c_int,
    next: *const Policy,
}

type Context = *mut c_void;

/// `srtp_ssrc_type_t`: one SSRC.
const SSRC_SPECIFIC: c_uint = 1;

extern "C" {
    fn srtp_init() -> c_int;
    fn srtp_get_version_string() -> *const c_char;
    // AES-128 in counter mode and HMAC-SHA1 with a tag of 10 bytes.
    fn srtp_crypto_policy_set_rtp_default(policy: *mut CryptoPolicy);
    fn srtp_create(context: *mut Context, policy: *const Policy) -> c_int;
    fn srtp_dealloc(context: Context) -> c_int;
    fn srtp_protect(context: Context, packet: *mut c_void, length: *mut c_int) -> c_int;
    fn srtp_unprotect(context: Context, packet: *mut c_void, length: *mut c_int) -> c_int;
}

type Call = unsafe extern "C" fn(Context, *mut c_void, *mut c_int) -> c_int;

struct Libsrtp2 {
    sender: Context,
    receiver: Context,
}

/// Its name and version.
pub fn version() -> String {
    // SAFETY: a constant string that ends with 0.
    unsafe { CStr::from_ptr(srtp_get_version_string()) }.to_string_lossy().into_owned()
}

/// A link under the plain settings: libsrtp2 is not measured under others.
pub fn set_up(settings: &Settings) -> Box<dyn Link> {
    static INIT: Once = Once::new();
    // SAFETY: it takes nothing.
    INIT.call_once(|| assert_eq!(unsafe { srtp_init() }, 0, "srtp_init"));
    assert!(*settings == PLAIN);
    Box::new(Libsrtp2 { sender: context(), receiver: context() })
}

fn context() -> Context {
    let key = [&MASTER_KEY[..], &MASTER_SALT].concat();
    let mut crypto = CryptoPolicy::default();
    // SAFETY: it writes the struct's own fields.
    unsafe { srtp_crypto_policy_set_rtp_default(&mut crypto) };
    let policy = Policy {
        ssrc_type: SSRC_SPECIFIC,
        ssrc: SSRC,
        rtp: crypto,
        rtcp: crypto,
        key: key.as_ptr(),
        keys: ptr::null(),
        key_count: 0,
        deprecated_ekt: ptr::null(),
        window_size: WINDOW_LENGTH as c_ulong,
        allow_repeat_tx: 0,
        enciphered_extensions: ptr::null(),
        enciphered_extension_count: 0,
        next: ptr::null(),
    };
    let mut context = ptr::null_mut();
    // SAFETY: the policy and its key outlive the call, which copies what it keeps.
    assert_eq!(unsafe { srtp_create(&mut context, &policy) }, 0, "srtp_create");
    context
}

impl Libsrtp2 {
    /// libsrtp2 works in place, so the packet is first copied to where the result is to stand.
    fn in_place(context: Context, call: Call, packet: &[u8], out: &mut [u8]) -> Answer {
        let room = packet.len() + TAG_LENGTH;
        let out = out.get_mut(..room).ok_or(Refusal::Room)?;
        out[..packet.len()].copy_from_slice(packet);
        let mut length = packet.len() as c_int;
        // SAFETY: the buffer has room for the packet and a tag, which is all that a call adds.
        let status = unsafe { call(context, out.as_mut_ptr().cast(), &mut length) };
        // Its reasons are not told apart: only packets that it finishes are measured.
        Refusal::Forged.unless(status == 0)?;
        Ok(length as usize)
    }
}

impl Link for Libsrtp2 {
    fn protect(&mut self, packet: &[u8], out: &mut [u8]) -> Answer {
        Self::in_place(self.sender, srtp_protect, packet, out)
    }

    fn open(&mut self, packet: &[u8], out: &mut [u8]) -> Answer {
        Self::in_place(self.receiver, srtp_unprotect, packet, out)
    }
}

impl Drop for Libsrtp2 {
    fn drop(&mut self) {
        for context in [self.sender, self.receiver] {
            // SAFETY: each was made by `srtp_create` and is not used again.
            unsafe { srtp_dealloc(context) };
        }
    }
}
