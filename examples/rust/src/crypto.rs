//! Ed25519, by OpenSSL's libcrypto. A controller of your own takes the library that it has.

use gronwythal::{ID_SIZE, SIGNATURE_SIZE};
use std::ffi::{c_int, c_void};
use std::ptr::null_mut;

const EVP_PKEY_ED25519: c_int = 1087;

#[link(name = "crypto")]
unsafe extern "C" {
    fn EVP_PKEY_new_raw_public_key(kind: c_int, engine: *mut c_void, key: *const u8, len: usize) -> *mut c_void;
    fn EVP_PKEY_free(key: *mut c_void);
    fn EVP_MD_CTX_new() -> *mut c_void;
    fn EVP_MD_CTX_free(context: *mut c_void);
    fn EVP_DigestVerifyInit(
        context: *mut c_void,
        key_context: *mut *mut c_void,
        digest: *const c_void,
        engine: *mut c_void,
        key: *mut c_void,
    ) -> c_int;
    fn EVP_DigestVerify(context: *mut c_void, sig: *const u8, sig_len: usize, part: *const u8, len: usize) -> c_int;
}

/// Whether it is a good signature. A check that cannot be made is a bad one.
pub fn verifies(public: &[u8; ID_SIZE], part: &[u8], sig: &[u8; SIGNATURE_SIZE]) -> bool {
    // SAFETY: lengths are those of the slices; both values are freed once, which is nothing for null.
    unsafe {
        let key = EVP_PKEY_new_raw_public_key(EVP_PKEY_ED25519, null_mut(), public.as_ptr(), public.len());
        let context = EVP_MD_CTX_new();
        let good = !key.is_null()
            && !context.is_null()
            && EVP_DigestVerifyInit(context, null_mut(), null_mut(), null_mut(), key) == 1
            && EVP_DigestVerify(context, sig.as_ptr(), sig.len(), part.as_ptr(), part.len()) == 1;
        EVP_MD_CTX_free(context);
        EVP_PKEY_free(key);
        good
    }
}
