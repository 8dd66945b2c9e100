//! Each call, decoded from a request that was written by hand from the protocol, in all ways to cut it into
//! two slices.

mod common;

use common::diary::{each_call, lock, Row};
use common::{each_cutting, fault, init, session, words, Request, WHO};
use nizwarf::{
    Call, Context, Decoded, Extensions, Features, FsOptions, Scratch, SecContext, Session, SetattrValid,
    SetxattrFlags,
};
use std::ffi::{CStr, CString};
use std::io::{self, IoSlice};

/// Decodes requests, and checks each call: by its pattern, and by a condition on the variables of that. The
/// options of the session follow after `with`.
macro_rules! calls {
    (options) => { FsOptions::empty() };
    (options $options:expr) => { $options };
    (call $call:ident $Call:ident { $($field:tt)* } $($facts:expr)?) => {
        match $call {
            Call::$Call { $($field)* } => { $(assert!($facts);)? }
            other => panic!("{other:?}"),
        }
    };
    ($($request:expr $(, with $options:expr)? => $Call:ident $fields:tt $(if $facts:expr)?;)*) => {
        $(each_cutting(calls!(options $($options)?), &$request.done(), |context, call| {
            assert_eq!(context, caller_of(&call));
            calls!(call call $Call $fields $($facts)?);
        });)*
    };
}

fn is(name: &CStr, text: &str) -> bool {
    name.to_bytes() == text.as_bytes()
}

/// The context of a call: of some the caller is not said.
fn caller_of(call: &Call<'_>) -> Context {
    let has_caller = !matches!(call, Call::Init { .. } | Call::Destroy { .. });
    if has_caller {
        WHO
    } else {
        Context { unique: 7, ..Context::default() }
    }
}

/// The extensions of a call. Calls that create no node have none.
fn extensions_of(call: &Call<'_>) -> Extensions {
    match call {
        Call::Symlink { extensions, .. }
        | Call::Mknod { extensions, .. }
        | Call::Mkdir { extensions, .. }
        | Call::Create { extensions, .. }
        | Call::Tmpfile { extensions, .. } => extensions.clone(),
        _ => Extensions::default(),
    }
}

#[test]
fn each_request_is_decoded_into_its_call() {
    for Row { request, is, line, .. } in each_call() {
        each_cutting(FsOptions::empty(), &request.done(), |context, call| {
            assert!(is(&call), "{line}: {call:?}");
            assert_eq!(context, caller_of(&call), "{line}");
            assert_eq!(extensions_of(&call), Extensions::default(), "{line}");
        });
    }
}

#[test]
fn names_and_attributes() {
    calls! {
        Request::new(1, 1).name("") => Lookup { name, .. } if is(&name, "");
        // The flags of a RENAME2 are reduced to NOREPLACE, EXCHANGE and WHITEOUT.
        Request::new(45, 2).u64(3).u32(0xff).u32(0).name("old").name("new") =>
            Rename { parent: 2, name, new_parent: 3, new_name, flags: 7, .. }
            if is(&name, "old") && is(&new_name, "new");
        Request::new(21, 5).u32(5).u32(2).u32(3).u32(0).name("user.a").bytes(b"value"),
            with FsOptions::SETXATTR_EXT =>
            Setxattr { node: 5, name, value, flags: 2, extra_flags, .. }
            if is(&name, "user.a")
                && *value == *b"value"
                && extra_flags == SetxattrFlags::SETXATTR_ACL_KILL_SGID;
    }
}

#[test]
fn extensions_of_new_nodes() {
    // A block of groups, of 16 bytes and type 32, has one group. A block of contexts, of 30 bytes and type
    // 1, has one context of 5 bytes, after its name.
    let group = words(&[16, 32, 1, 4242]);
    let context = [words(&[30, 1, 5, 0]), b"security\0value".to_vec()].concat();
    let options = FsOptions::SECURITY_CTX | FsOptions::CREATE_SUPP_GROUP;
    let expected = Extensions {
        secctx: Some(SecContext { name: CString::new("security").unwrap(), secctx: b"value".to_vec() }),
        sup_gid: Some(4242),
    };
    let mkdir = |blocks: &[u8]| Request::new(9, 2).u32(0o755).u32(0).name("dir").bytes(blocks);
    calls! {
        mkdir(&[&group[..], &context].concat()), with options =>
            Mkdir { extensions, .. } if extensions == expected;
        mkdir(&[&context[..], &group].concat()), with options =>
            Mkdir { extensions, .. } if extensions == expected;
        // Without the option, extensions are ignored.
        mkdir(&context) => Mkdir { extensions, .. } if extensions == Extensions::default();
    }
}

#[test]
fn nodes() {
    // A SETATTR of mode and size, by a handle, with an unknown bit.
    let record = Request::new(4, 5).u32(0x8000 | 1 | 8 | 64).u32(0).u64(8).u64(99).u64(0);
    let record = record.u64(1).u64(2).u64(3).u32(4).u32(5).u32(6).u32(0o600).u32(0).u32(7).u32(8);
    calls! {
        Request::new(3, 5).u32(0).u32(0).u64(8) => Getattr { node: 5, handle: None, .. };
        record.u32(0) => Setattr { node: 5, attr, handle: Some(8), valid, .. }
            if valid == SetattrValid::MODE | SetattrValid::SIZE
                && (attr.size, attr.mode, attr.uid, attr.gid) == (99, 0o600, 7, 8)
                && (attr.atime, attr.mtime, attr.ctime) == (1, 2, 3)
                && (attr.atimensec, attr.mtimensec, attr.ctimensec) == (4, 5, 6);
        Request::new(42, 0).u32(2).u32(0).u64(5).u64(1).u64(6).u64(9) => BatchForget { forgets, .. }
            if forgets.collect::<Vec<_>>() == [(5, 1), (6, 9)];
    }
}

/// `fuse_read_in` and `fuse_write_in`.
fn moves(opcode: u32, size: u32, its_flags: u32) -> Request {
    Request::new(opcode, 5).u64(8).u64(1 << 40).u32(size).u32(its_flags).u64(44).u32(2).u32(0)
}

#[test]
fn open_files() {
    let release = |flags| Request::new(18, 5).u64(8).u32(0x8000).u32(flags).u64(44);
    calls! {
        Request::new(14, 5).u32(0).u32(0) => Open { node: 5, kill_priv: false, flags: 0, .. };
        moves(15, 6000, 0) =>
            Read { node: 5, handle: 8, size: 6000, offset: 0x100_0000_0000, lock_owner: None, flags: 2, to }
            if to.max() == 4080 && to.reply_size() == 4096 && to.unique() == 7;
        moves(15, 60, 2) => Read { lock_owner: Some(44), to, .. } if to.max() == 60;
        moves(16, 4, 0).bytes(b"data") =>
            Write { node: 5, handle: 8, data, size: 4, offset: 0x100_0000_0000, lock_owner: None,
                delayed_write: false, kill_priv: false, flags: 2, .. }
            if *data.to_cow() == *b"data" && data.len() == 4;
        // Bytes after the first `size` are not to be written.
        moves(16, 2, 7).bytes(b"data") =>
            Write { data, size: 2, lock_owner: Some(44), delayed_write: true, kill_priv: true, .. }
            if *data.to_cow() == *b"da";
        moves(16, 9, 0).bytes(b"data") => Write { data, size: 9, .. } if *data.to_cow() == *b"data";
        release(0) => Release { node: 5, flags: 0x8000, handle: 8, flush: false, flock_release: false,
            lock_owner: None, .. };
        release(1) => Release { flush: true, flock_release: false, lock_owner: Some(44), .. };
        release(2) => Release { flush: false, flock_release: true, lock_owner: Some(44), .. };
    }
}

#[test]
fn sessions() {
    // The library itself does not know these.
    let later = FsOptions::HAS_RESEND | FsOptions::REQUEST_TIMEOUT;
    let bits = u32::try_from(later.bits() >> 32).unwrap() | 1 << 5 | 1 << 9;
    calls! {
        // Bit 26 is no option. Without bit 30 the second record is ignored.
        Request::new(26, 0).u32(7).u32(38).u32(131_072).u32(1 << 26 | 1 << 13).bytes(&[0xff; 48]) =>
            Init { capable: FsOptions::DO_READDIRPLUS, readahead: 131_072, .. };
        init(131_072, 1 << 30, 1) => Init { capable, .. }
            if capable == FsOptions::INIT_EXT | FsOptions::SECURITY_CTX;
        init(0, 1 << 30, bits) => Init { capable, .. } if capable == FsOptions::INIT_EXT | later;
    }
}

/// The number of the call of a request, if it is unknown.
fn unknown(session: &Session, request: Request) -> Option<u32> {
    let request = request.done();
    let mut scratch = Scratch::new();
    let slices = [IoSlice::new(&request)];
    match scratch.decode(session, &slices, 4096) {
        Decoded::Call(pending) => match pending.call {
            Call::Unknown { number, to } => {
                let encoded = to.fail(&mut scratch, &io::Error::from_raw_os_error(38));
                assert_eq!(encoded.reply().bytes(), fault(38));
                Some(number)
            }
            _ => None,
        },
        Decoded::Finished(mut done) => {
            assert_eq!(done.reply.bytes(), fault(38));
            None
        }
    }
}

#[test]
fn what_is_not_enabled_is_unknown() {
    let rows = || each_call().into_iter().map(|row| row.request);
    let unknown_in =
        |session: &Session| -> Vec<u32> { rows().filter_map(|request| unknown(session, request)).collect() };
    // The opcodes 52 and 53 do not exist then.
    assert_eq!(unknown_in(&Session::default()), [31, 32, 33, 37, 39, 40, 40, 41, 51]);
    let mut some = Session::default();
    some.set_features(Features::LOCKS | Features::IOCTL);
    assert_eq!(unknown_in(&some), [37, 40, 40, 41, 51]);
    assert_eq!(unknown_in(&session(FsOptions::empty())), []);
    // So is a lock of an unknown type.
    for opcode in [31, 32, 33] {
        assert_eq!(unknown(&session(FsOptions::empty()), lock(opcode, 3, 0)), Some(opcode));
    }
}
