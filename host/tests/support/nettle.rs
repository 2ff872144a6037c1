//! AES-128 and CCM of the library nettle, where it is installed: an implementation that is nobody's here.
use std::ffi::{c_char, c_int, c_void};

extern "C" {
    fn dlopen(file: *const c_char, mode: c_int) -> *mut c_void;
    fn dlsym(library: *mut c_void, symbol: *const c_char) -> *mut c_void;
}

const RTLD_NOW: c_int = 2;
const FILES: [&[u8]; 2] = [b"libnettle.so.8\0", b"libnettle.so\0"];

type SetKey = unsafe extern "C" fn(*mut c_void, *const u8);
type Encrypt = unsafe extern "C" fn(*const c_void, usize, *mut u8, *const u8);
/// cipher context, cipher, nonce, authenticated data, MIC length, result's length, result, source
type Message<Status> = unsafe extern "C" fn(
    *const c_void,
    Encrypt,
    usize,
    *const u8,
    usize,
    *const u8,
    usize,
    usize,
    *mut u8,
    *const u8,
) -> Status;

pub struct Nettle {
    set_key: SetKey,
    encrypt: Encrypt,
    ccm_encrypt: Message<()>,
    ccm_decrypt: Message<c_int>,
}

/// Room for nettle's `struct aes128_ctx`, which takes 176 bytes.
#[repr(align(64))]
struct Context([u8; 1024]);

impl Nettle {
    /// The library, none where it is not installed.
    pub fn load() -> Option<Nettle> {
        // SAFETY: nettle has no load-time effects, and the types above are those of its header files.
        unsafe {
            let library = FILES.iter().map(|file| dlopen(file.as_ptr().cast(), RTLD_NOW)).find(|it| !it.is_null())?;
            let symbol = |name: &[u8]| Some(dlsym(library, name.as_ptr().cast())).filter(|it| !it.is_null());
            let set_key = symbol(b"nettle_aes128_set_encrypt_key\0")?;
            let encrypt = symbol(b"nettle_aes128_encrypt\0")?;
            let ccm_encrypt = symbol(b"nettle_ccm_encrypt_message\0")?;
            let ccm_decrypt = symbol(b"nettle_ccm_decrypt_message\0")?;
            Some(Nettle {
                set_key: std::mem::transmute::<*mut c_void, SetKey>(set_key),
                encrypt: std::mem::transmute::<*mut c_void, Encrypt>(encrypt),
                ccm_encrypt: std::mem::transmute::<*mut c_void, Message<()>>(ccm_encrypt),
                ccm_decrypt: std::mem::transmute::<*mut c_void, Message<c_int>>(ccm_decrypt),
            })
        }
    }

    fn keyed(&self, key: &[u8; 16]) -> Context {
        let mut context = Context([0; 1024]);
        // SAFETY: the context is larger and more aligned than nettle's, the key has its 16 bytes.
        unsafe { (self.set_key)(context.0.as_mut_ptr().cast(), key.as_ptr()) };
        context
    }

    pub fn block(&self, key: &[u8; 16], block: &[u8; 16]) -> [u8; 16] {
        let context = self.keyed(key);
        let mut out = [0; 16];
        // SAFETY: one block is read and one written.
        unsafe { (self.encrypt)(context.0.as_ptr().cast(), 16, out.as_mut_ptr(), block.as_ptr()) };
        out
    }

    /// Ciphertext, then a MIC of t bytes.
    pub fn ccm_encrypt(&self, t: usize, key: &[u8; 16], nonce: &[u8], auth: &[u8], payload: &[u8]) -> Vec<u8> {
        let context = self.keyed(key);
        let mut out = vec![0; payload.len() + t];
        // SAFETY: every pointer has the length beside it; `out` takes payload and MIC.
        unsafe {
            (self.ccm_encrypt)(
                context.0.as_ptr().cast(),
                self.encrypt,
                nonce.len(),
                nonce.as_ptr(),
                auth.len(),
                auth.as_ptr(),
                t,
                out.len(),
                out.as_mut_ptr(),
                payload.as_ptr(),
            )
        };
        out
    }

    /// The payload of ciphertext and a MIC of t bytes, none where the MIC is not the one computed.
    pub fn ccm_decrypt(&self, t: usize, key: &[u8; 16], nonce: &[u8], auth: &[u8], sealed: &[u8]) -> Option<Vec<u8>> {
        let context = self.keyed(key);
        let mut out = vec![0; sealed.len() - t];
        // SAFETY: every pointer has the length beside it; `out` takes the payload.
        let accepted = unsafe {
            (self.ccm_decrypt)(
                context.0.as_ptr().cast(),
                self.encrypt,
                nonce.len(),
                nonce.as_ptr(),
                auth.len(),
                auth.as_ptr(),
                t,
                out.len(),
                out.as_mut_ptr(),
                sealed.as_ptr(),
            )
        };
        (accepted == 1).then_some(out)
    }
}
