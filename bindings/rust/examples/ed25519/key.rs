//! Keys of Ed25519, by OpenSSL's libcrypto. `bench/shards` takes this file as it is.

use std::ffi::{c_int, c_void};
use std::ptr::{null, null_mut};

const EVP_PKEY_ED25519: c_int = 1087;

#[rustfmt::skip]
#[link(name = "crypto")]
extern "C" {
    fn EVP_PKEY_new_raw_private_key(kind: c_int, engine: *mut c_void, key: *const u8, len: usize) -> *mut c_void;
    fn EVP_PKEY_free(key: *mut c_void);
    fn EVP_MD_CTX_new() -> *mut c_void;
    fn EVP_MD_CTX_free(context: *mut c_void);
    fn EVP_DigestSignInit(
        context: *mut c_void, inner: *mut *mut c_void, hash: *const c_void, engine: *mut c_void, key: *mut c_void,
    ) -> c_int;
    fn EVP_DigestSign(context: *mut c_void, signature: *mut u8, signature_len: *mut usize, m: *const u8, len: usize) -> c_int;
    fn EVP_DigestVerifyInit(
        context: *mut c_void, inner: *mut *mut c_void, hash: *const c_void, engine: *mut c_void, key: *mut c_void,
    ) -> c_int;
    fn EVP_DigestVerify(context: *mut c_void, signature: *const u8, signature_len: usize, m: *const u8, len: usize) -> c_int;
}

/// A key of Ed25519.
pub struct Key(*mut c_void);

impl Key {
    pub fn of_seed(seed: [u8; 32]) -> Key {
        // SAFETY: the seed has 32 bytes.
        let key = unsafe { EVP_PKEY_new_raw_private_key(EVP_PKEY_ED25519, null_mut(), seed.as_ptr(), 32) };
        assert!(!key.is_null());
        Key(key)
    }

    pub fn sign(&self, message: &[u8]) -> [u8; 64] {
        let mut signature = [0; 64];
        let mut len = 64;
        // SAFETY: the context is made here, the key lives, and the signature has room for 64 bytes.
        let signed = unsafe {
            let context = EVP_MD_CTX_new();
            let signed = EVP_DigestSignInit(context, null_mut(), null(), null_mut(), self.0) == 1
                && EVP_DigestSign(context, signature.as_mut_ptr(), &mut len, message.as_ptr(), message.len()) == 1;
            EVP_MD_CTX_free(context);
            signed
        };
        assert!(signed && len == 64);
        signature
    }

    pub fn verifies(&self, message: &[u8], signature: &[u8]) -> bool {
        // SAFETY: the context is made here, and the key lives.
        unsafe {
            let context = EVP_MD_CTX_new();
            let verified = EVP_DigestVerifyInit(context, null_mut(), null(), null_mut(), self.0) == 1
                && EVP_DigestVerify(context, signature.as_ptr(), signature.len(), message.as_ptr(), message.len()) == 1;
            EVP_MD_CTX_free(context);
            verified
        }
    }
}

// SAFETY: libcrypto counts the references to a key by atomic operations, and after `of_seed` nothing writes to it. Each call
// that signs or verifies has a context of its own.
unsafe impl Send for Key {}
unsafe impl Sync for Key {}

impl Drop for Key {
    fn drop(&mut self) {
        // SAFETY: the key was made by `of_seed`, and is freed once.
        unsafe { EVP_PKEY_free(self.0) }
    }
}
