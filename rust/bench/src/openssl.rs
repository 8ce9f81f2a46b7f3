//! The system's OpenSSL, loaded at run time if it is there: nothing here needs it to build.

use std::ffi::{c_char, c_int, c_void, CStr};
use std::hint::black_box;

extern "C" {
    fn dlopen(file: *const c_char, mode: c_int) -> *mut c_void;
    fn dlsym(library: *mut c_void, name: *const c_char) -> *mut c_void;
}

/// Room for OpenSSL's SHA256_CTX, of 112 bytes.
#[repr(C, align(16))]
struct Context([u8; 256]);

type Init = unsafe extern "C" fn(context: *mut Context) -> c_int;
type Update = unsafe extern "C" fn(context: *mut Context, message: *const u8, length: usize) -> c_int;
type Final = unsafe extern "C" fn(digest: *mut u8, context: *mut Context) -> c_int;
type Version = unsafe extern "C" fn(what: c_int) -> *const c_char;

pub struct OpenSsl {
    init: Init,
    update: Update,
    last: Final,
    pub version: String,
    /// The processor has SHA instructions, and OpenSSL was told not to use them.
    pub masked: bool,
}

impl OpenSsl {
    /// Loads the library with SHA instructions masked, so that like is compared with like.
    pub fn load() -> Option<Self> {
        let masked = std::arch::is_x86_feature_detected!("sha");
        if masked {
            // the bit of CPUID leaf 7 that tells of them; OpenSSL reads the variable when it is loaded
            std::env::set_var("OPENSSL_ia32cap", ":~0x20000000");
        }
        const NOW: c_int = 2;
        let library = unsafe { dlopen(c"libcrypto.so.3".as_ptr(), NOW) };
        if library.is_null() {
            return None;
        }
        let symbol = |name: &CStr| {
            let found = unsafe { dlsym(library, name.as_ptr()) };
            (!found.is_null()).then_some(found)
        };
        // the functions without the lookup of an algorithm, which costs more than a short message
        let init = unsafe { std::mem::transmute::<*mut c_void, Init>(symbol(c"SHA256_Init")?) };
        let update = unsafe { std::mem::transmute::<*mut c_void, Update>(symbol(c"SHA256_Update")?) };
        let last = unsafe { std::mem::transmute::<*mut c_void, Final>(symbol(c"SHA256_Final")?) };
        let version = unsafe { std::mem::transmute::<*mut c_void, Version>(symbol(c"OpenSSL_version")?) };
        let version = unsafe { CStr::from_ptr(version(0)) }.to_string_lossy().into_owned();
        Some(OpenSsl { init, update, last, version, masked })
    }

    pub fn hash(&self, message: &[u8]) -> [u8; 32] {
        let mut context = Context([0; 256]);
        let mut digest = [0; 32];
        unsafe {
            (self.init)(&mut context);
            (self.update)(&mut context, message.as_ptr(), message.len());
            (self.last)(digest.as_mut_ptr(), &mut context);
        }
        digest
    }

    pub fn hash_all(&self, strings: &Strings) {
        for string in strings.iter() {
            black_box(self.hash(string));
        }
    }
}

/// Strings one after the other in memory.
pub struct Strings {
    bytes: Vec<u8>,
    lengths: Vec<usize>,
}

impl Strings {
    pub fn new(strings: &[Vec<u8>]) -> Self {
        Strings { bytes: strings.concat(), lengths: strings.iter().map(Vec::len).collect() }
    }

    pub fn is_empty(&self) -> bool {
        self.lengths.is_empty()
    }

    fn iter(&self) -> impl Iterator<Item = &[u8]> {
        let mut rest = &self.bytes[..];
        self.lengths.iter().map(move |length| rest.split_off(..*length).expect("as many bytes as lengths say"))
    }
}

#[cfg(test)]
mod tests {
    use super::*;

    #[test]
    fn strings_come_out_as_they_went_in() {
        let strings = [&b"one"[..], b"", b"three", b"4"].map(<[u8]>::to_vec);
        assert_eq!(Strings::new(&strings).iter().map(<[u8]>::to_vec).collect::<Vec<_>>(), strings);
        assert!(Strings::new(&[]).is_empty() && !Strings::new(&strings).is_empty());
    }
}
