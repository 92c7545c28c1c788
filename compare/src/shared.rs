//! A shared object that another archive was made into, loaded beside the archive that is linked.

use std::ffi::{c_char, c_int, c_void, CStr, CString};
use std::mem;

extern "C" {
    fn dlopen(path: *const c_char, mode: c_int) -> *mut c_void;
    fn dlsym(object: *mut c_void, name: *const c_char) -> *mut c_void;
}

/// What it needs is found when it is loaded.
const RTLD_NOW: c_int = 2;
/// What it has is not found by others.
const RTLD_LOCAL: c_int = 0;

/// It stays loaded until the program ends.
pub struct Shared(*mut c_void);

impl Shared {
    pub fn load(path: &str) -> Result<Self, String> {
        let name = CString::new(path).map_err(|_| format!("a path without a byte 0, and not {path:?}"))?;
        let object = unsafe { dlopen(name.as_ptr(), RTLD_NOW | RTLD_LOCAL) };
        if object.is_null() {
            return Err(format!("{path} is no shared object that can be loaded"));
        }
        Ok(Shared(object))
    }

    /// Its function of this name. The linked one, which gives the type, must be another.
    pub fn function<F: Copy + PartialEq>(&self, name: &CStr, linked: F) -> Result<F, String> {
        assert_eq!(mem::size_of::<F>(), mem::size_of::<*mut c_void>());
        let shown = name.to_string_lossy();
        let found = unsafe { dlsym(self.0, name.as_ptr()) };
        if found.is_null() {
            return Err(format!("the other archive has no {shown}"));
        }
        let function = unsafe { mem::transmute_copy::<*mut c_void, F>(&found) };
        if function == linked {
            return Err(format!("the other archive's {shown} is the linked one"));
        }
        Ok(function)
    }
}
