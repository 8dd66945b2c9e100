//! Notes of calls, with their arguments and what they were answered, as `test_sessions` has them: two
//! spaces before each line are put by who prints it.
use crate::filesystem::*;
use crate::fuse::SetattrIn;
use crate::request::hex;
use std::ffi::CStr;
use std::io;
use std::sync::{Arc, Mutex};

/// The lines of a request. The file of a transfer adds its own.
#[derive(Clone, Default)]
pub struct Notes(Arc<Mutex<Vec<String>>>);
impl Notes {
    pub fn add(&self, s: String) {
        self.0.lock().unwrap_or_else(|e| e.into_inner()).push(s);
    }
    pub fn call(&self, line: &str) {
        self.add(format!("call {line}"));
    }
    pub fn answer<T>(&self, answer: &io::Result<T>, told: impl Fn(&T) -> String) {
        self.add(match answer {
            Ok(value) => format!("-> ok{}", told(value)),
            Err(error) => format!("-> {}", fault(error)),
        });
    }
    pub fn take(&self) -> Vec<String> {
        std::mem::take(&mut *self.0.lock().unwrap_or_else(|e| e.into_inner()))
    }
}

pub fn c(x: Context) -> String {
    format!("ctx={},{},{}", x.uid.into_inner(), x.gid.into_inner(), x.pid as u32)
}
/// An argument of a call, as notes have it.
pub trait Argument {
    fn noted(&self, name: &str) -> String;
}
macro_rules! arguments { ($($T:ty: $it:ident => $shown:expr;)*) => { $(
    impl Argument for $T {
        fn noted(&self, name: &str) -> String {
            let $it = self;
            format!("{name}={}", $shown)
        }
    }
)* } }
arguments! {
    u32: n => n;
    u64: n => n;
    bool: is_so => is_so;
    Option<u64>: n => o(*n);
    &CStr: text => hex(text.to_bytes());
    &[u8]: bytes => hex(bytes);
    SetattrIn: attr => hex(vm_memory::ByteValued::as_slice(attr));
    SetattrValid: flags => flags.bits();
    SetxattrFlags: flags => flags.bits();
}
/// (they have two names of their own)
impl Argument for Extensions {
    fn noted(&self, _name: &str) -> String {
        let secctx = self.secctx.as_ref();
        let secctx =
            secctx.map_or("none".into(), |it| hex(it.name.to_bytes()) + ":" + &hex(&it.secctx));
        let group = self.sup_gid.map_or("none".into(), |it| it.into_inner().to_string());
        format!("secctx={secctx} group={group}")
    }
}
fn o(x: Option<u64>) -> String {
    x.map_or("none".into(), |n| n.to_string())
}
/// A number below 1 is no number of an error, and is noted as none.
fn fault(x: &io::Error) -> String {
    x.raw_os_error().filter(|n| *n > 0).map_or("fault none".into(), |n| format!("fault {n}"))
}
pub fn h(x: Option<u64>, f: OpenOptions) -> String {
    format!("handle={} opts={}", o(x), f.bits())
}
/// The note of an answer that only says that it is one.
pub fn nothing<T>(_: &T) -> String {
    String::new()
}
