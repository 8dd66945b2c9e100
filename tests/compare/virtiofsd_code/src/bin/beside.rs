//! Measures what a request costs, by classes, in nanoseconds of processor time and in allocations, by
//! virtiofsd's own code and by the library of `test_speed` in one process: `tools/measure/speed.sh`.
//!
//! A row is a class under one cutting; `segments` are the pieces of its first request and room. For each
//! side: the least of the runs for a request, how far the middle and the greatest run lie above it, and
//! what a request asks of the allocator, in a run of its own. `ratio` is here by there, of the leasts,
//! and `of pairs` the middle of the ratios of runs that followed each other. What is done once a call,
//! as cutting and setting up, isn't measured: the time of one round is taken from that of many.
//!
//!     --digests       only compares the replies of both sides, in every cutting and after 1, 2, 3 rounds
//!     --only TEXT     only the classes whose names have TEXT in them
//!     --runs N --ms N how many runs, and how long each
use oracle::batch::{pieces, run, Batch, MEM, NULL};
use std::alloc::{GlobalAlloc, Layout, System};
use std::sync::atomic::{AtomicBool, AtomicU64, Ordering::Relaxed};

// --- counting of allocations, off while time is measured ---
static COUNTING: AtomicBool = AtomicBool::new(false);
static COUNT: AtomicU64 = AtomicU64::new(0);
static BYTES: AtomicU64 = AtomicU64::new(0);
fn note(n: usize) {
    if COUNTING.load(Relaxed) {
        COUNT.fetch_add(1, Relaxed);
        BYTES.fetch_add(n as u64, Relaxed);
    }
}
struct Counting;
unsafe impl GlobalAlloc for Counting {
    unsafe fn alloc(&self, l: Layout) -> *mut u8 {
        note(l.size());
        System.alloc(l)
    }
    unsafe fn alloc_zeroed(&self, l: Layout) -> *mut u8 {
        note(l.size());
        System.alloc_zeroed(l)
    }
    unsafe fn realloc(&self, p: *mut u8, l: Layout, n: usize) -> *mut u8 {
        note(n);
        System.realloc(p, l, n)
    }
    unsafe fn dealloc(&self, p: *mut u8, l: Layout) {
        System.dealloc(p, l)
    }
}
#[global_allocator]
static ALLOCATOR: Counting = Counting;

/// Allocations of a side and bytes asked for, while `f` runs.
fn counted(side: &Side, f: impl FnOnce() -> u64) -> (u64, u64) {
    let before = (side.count.load(Relaxed), side.bytes.load(Relaxed));
    COUNTING.store(true, Relaxed);
    f();
    COUNTING.store(false, Relaxed);
    (side.count.load(Relaxed) - before.0, side.bytes.load(Relaxed) - before.1)
}

// --- the two sides ---
type Run = fn(&[u8], &mut [u8], u32, u32) -> u64;
struct Side {
    name: &'static str,
    run: Run,
    count: &'static AtomicU64,
    bytes: &'static AtomicU64,
}
static SIDES: [Side; 2] = [
    Side { name: "rust", run, count: &COUNT, bytes: &BYTES },
    Side { name: "here", run: here::run, count: &here::COUNT, bytes: &here::BYTES },
];

mod here {
    use super::*;
    extern "C" {
        fn nizwarf_batch(
            requests: *const u8,
            requests_len: usize,
            replies: *mut u8,
            replies_len: usize,
            rounds: u32,
            cutting: u32,
        ) -> u64;
    }
    pub fn run(requests: &[u8], replies: &mut [u8], rounds: u32, cutting: u32) -> u64 {
        unsafe {
            nizwarf_batch(
                requests.as_ptr(),
                requests.len(),
                replies.as_mut_ptr(),
                replies.len(),
                rounds,
                cutting,
            )
        }
    }

    // Its allocations are those that it asks of the C library, whose functions these stand before.
    pub static COUNT: AtomicU64 = AtomicU64::new(0);
    pub static BYTES: AtomicU64 = AtomicU64::new(0);
    fn note(n: usize) {
        if COUNTING.load(Relaxed) {
            COUNT.fetch_add(1, Relaxed);
            BYTES.fetch_add(n as u64, Relaxed);
        }
    }
    extern "C" {
        fn __libc_malloc(n: usize) -> *mut u8;
        fn __libc_calloc(n: usize, size: usize) -> *mut u8;
        fn __libc_realloc(p: *mut u8, n: usize) -> *mut u8;
        fn __libc_memalign(align: usize, n: usize) -> *mut u8;
    }
    #[no_mangle]
    unsafe extern "C" fn malloc(n: usize) -> *mut u8 {
        note(n);
        __libc_malloc(n)
    }
    #[no_mangle]
    unsafe extern "C" fn calloc(n: usize, size: usize) -> *mut u8 {
        note(n.saturating_mul(size));
        __libc_calloc(n, size)
    }
    #[no_mangle]
    unsafe extern "C" fn realloc(p: *mut u8, n: usize) -> *mut u8 {
        note(n);
        __libc_realloc(p, n)
    }
    #[no_mangle]
    unsafe extern "C" fn aligned_alloc(align: usize, n: usize) -> *mut u8 {
        note(n);
        __libc_memalign(align, n)
    }
    #[no_mangle]
    unsafe extern "C" fn memalign(align: usize, n: usize) -> *mut u8 {
        note(n);
        __libc_memalign(align, n)
    }
    #[no_mangle]
    unsafe extern "C" fn posix_memalign(out: *mut *mut u8, align: usize, n: usize) -> i32 {
        note(n);
        let p = __libc_memalign(align, n);
        if p.is_null() {
            return 12;
        }
        *out = p;
        0
    }
}

// --- the classes ---
/// A request's bytes after the header, put together.
#[derive(Default)]
struct Body(Vec<u8>);
impl Body {
    fn u32s(mut self, all: &[u32]) -> Self {
        all.iter().for_each(|n| self.0.extend(n.to_le_bytes()));
        self
    }
    fn u64s(mut self, all: &[u64]) -> Self {
        all.iter().for_each(|n| self.0.extend(n.to_le_bytes()));
        self
    }
    fn bytes(mut self, b: &[u8]) -> Self {
        self.0.extend(b);
        self
    }
    fn data(mut self, n: usize) -> Self {
        self.0.extend((0..n).map(|i| (i * 31 + i / 251 + 7) as u8));
        self
    }
    fn request(self, opcode: u32, unique: u64, node: u64) -> Vec<u8> {
        let all = Body::default()
            .u32s(&[40 + self.0.len() as u32, opcode])
            .u64s(&[unique, node])
            .u32s(&[1000, 1000, 4242, 0]);
        all.bytes(&self.0).0
    }
}
fn body() -> Body {
    Body::default()
}

struct Class {
    name: String,
    batch: Vec<u8>,
    /// how many requests are measured
    n: u64,
}

type Asked = (u32, Vec<u8>);

fn init(unique: u64) -> Asked {
    // what a 6.18 kernel sends
    (80, body().u32s(&[7, 45, 0x20000, 0x73ff_fffb, 0x5fd]).bytes(&[0; 44]).request(26, unique, 0))
}
fn lookup(unique: u64, name: &[u8]) -> Asked {
    (144, body().bytes(name).bytes(&[0]).request(1, unique, 1))
}
fn getattr(unique: u64, node: u64) -> Asked {
    (120, body().u64s(&[0, 0]).request(3, unique, node))
}
fn forget(unique: u64, node: u64) -> Asked {
    (0, body().u64s(&[1]).request(2, unique, node))
}
fn write(unique: u64, offset: u64, size: usize) -> Asked {
    let fixed = body().u64s(&[0, offset]).u32s(&[size as u32, 0]).u64s(&[0, 0]);
    (24, fixed.data(size).request(16, unique, 2))
}
/// READ, READDIR (28) or READDIRPLUS (44)
fn read(opcode: u32, unique: u64, node: u64, offset: u64, size: u32) -> Asked {
    (
        16 + size,
        body().u64s(&[0, offset]).u32s(&[size, 0]).u64s(&[0, 0]).request(opcode, unique, node),
    )
}
fn batch_forget(unique: u64, pairs: u32) -> Asked {
    let pairs_of = (0..pairs as u64).flat_map(|i| [i + 2, 1]).collect::<Vec<_>>();
    (16, body().u32s(&[pairs, 0]).u64s(&pairs_of).request(42, unique, 0))
}
fn create(unique: u64, name: &str) -> Asked {
    (160, body().u32s(&[0, 0o644, 0, 0]).bytes(name.as_bytes()).bytes(&[0]).request(35, unique, 1))
}
fn setxattr(unique: u64) -> Asked {
    (16, body().u32s(&[65_536, 0]).bytes(b"user.big\0").data(65_536).request(21, unique, 2))
}
fn mkdir(unique: u64) -> Asked {
    let context = b"system_u:object_r:unlabeled_t:s0\0"; // 33 bytes
    let ext =
        body().u32s(&[72, 1, 33, 0]).bytes(b"security.selinux\0").bytes(context).bytes(&[0; 6]);
    (144, body().u32s(&[0o755, 0o22]).bytes(b"directory\0").bytes(&ext.0).request(9, unique, 1))
}
fn short_header(unique: u64) -> Asked {
    let mut r = body().request(17, unique, 1);
    r.pop();
    (16, r)
}
/// Five requests in turns; what is read was written by the one before.
fn mixed(i: u64) -> Asked {
    let offset = i / 5 % 16 * 4096;
    match i % 5 {
        0 => lookup(i, b"a"),
        1 => getattr(i, 2),
        2 => write(i, offset, 4096 - i as usize),
        3 => read(15, i, 2, offset, 4096),
        _ => forget(i, 2),
    }
}

fn classes() -> Vec<Class> {
    let mut all = Vec::new();
    let mut add = |name: &str, fs: u32, setup: Vec<Asked>, n: u64, ask: &dyn Fn(u64) -> Asked| {
        let setup: Vec<Asked> = std::iter::once(init(1)).chain(setup).collect();
        let mut batch = body().u32s(&[fs, setup.len() as u32]);
        for (room, request) in setup.into_iter().chain((0..n).map(|i| ask(i + 2))) {
            batch = batch.u32s(&[room, request.len() as u32]).bytes(&request);
        }
        all.push(Class { name: name.to_string(), batch: batch.0, n });
    };
    let full = || vec![write(1, 0, 65_536)];
    let files =
        || (1..1000).map(|i| create(1, &format!("file-0123456789-{i:04}"))).collect::<Vec<_>>();

    add("mem/lookup_found", MEM, vec![], 64, &|i| lookup(i, b"a"));
    add("mem/lookup_missing", MEM, vec![], 64, &|i| lookup(i, b"b"));
    add("mem/getattr", MEM, vec![], 64, &|i| getattr(i, 2));
    add("mem/forget", MEM, vec![], 64, &|i| forget(i, 2));
    add("mem/init", MEM, vec![], 64, &init);
    add("mem/short_header", MEM, vec![], 64, &short_header);
    add("mem/write_64", MEM, vec![], 64, &|i| write(i, i * 64, 64));
    add("mem/write_4k", MEM, vec![], 32, &|i| write(i, i % 16 * 4096, 4096));
    add("mem/write_64k", MEM, vec![], 8, &|i| write(i, 0, 65_536));
    add("mem/write_1m", MEM, vec![], 2, &|i| write(i, 0, 1 << 20));
    add("mem/read_64", MEM, full(), 64, &|i| read(15, i, 2, i * 64, 64));
    add("mem/read_4k", MEM, full(), 32, &|i| read(15, i, 2, i % 16 * 4096, 4096));
    add("mem/read_64k", MEM, full(), 8, &|i| read(15, i, 2, 0, 65_536));
    add("mem/mixed", MEM, full(), 80, &mixed);
    add("mem/readdir_64k", MEM, files(), 2, &|i| read(28, i, 1, 0, 65_536));
    add("mem/readdir_1m", MEM, files(), 2, &|i| read(28, i, 1, 0, 1 << 20));
    add("mem/readdirplus_64k", MEM, files(), 2, &|i| read(44, i, 1, 0, 65_536));
    add("mem/readdirplus_1m", MEM, files(), 2, &|i| read(44, i, 1, 0, 1 << 20));
    add("mem/batch_forget_1", MEM, vec![], 64, &|i| batch_forget(i, 1));
    add("mem/batch_forget_1000", MEM, vec![], 8, &|i| batch_forget(i, 1000));
    add("mem/batch_forget_65536", MEM, vec![], 2, &|i| batch_forget(i, 65_536));

    add("null/lookup", NULL, vec![], 64, &|i| lookup(i, b"file-0123456789-0000"));
    add("null/getattr", NULL, vec![], 64, &|i| getattr(i, 2));
    add("null/write_64", NULL, vec![], 64, &|i| write(i, 0, 64));
    add("null/write_4k", NULL, vec![], 32, &|i| write(i, 0, 4096));
    add("null/write_64k", NULL, vec![], 8, &|i| write(i, 0, 65_536));
    add("null/write_1m", NULL, vec![], 2, &|i| write(i, 0, 1 << 20));
    add("null/read_64", NULL, vec![], 64, &|i| read(15, i, 2, 0, 64));
    add("null/read_4k", NULL, vec![], 32, &|i| read(15, i, 2, 0, 4096));
    add("null/read_64k", NULL, vec![], 8, &|i| read(15, i, 2, 0, 65_536));
    add("null/read_1m", NULL, vec![], 2, &|i| read(15, i, 2, 0, 1 << 20));
    add("null/readdir_64k", NULL, vec![], 2, &|i| read(28, i, 1, 0, 65_536));
    add("null/readdir_1m", NULL, vec![], 2, &|i| read(28, i, 1, 0, 1 << 20));
    add("null/readdirplus_64k", NULL, vec![], 2, &|i| read(44, i, 1, 0, 65_536));
    add("null/readdirplus_1m", NULL, vec![], 2, &|i| read(44, i, 1, 0, 1 << 20));
    add("null/batch_forget_65536", NULL, vec![], 2, &|i| batch_forget(i, 65_536));
    add("null/setxattr_64k", NULL, vec![], 8, &setxattr);
    add("null/mkdir_secctx", NULL, vec![], 64, &mkdir);
    all
}

const CUTTINGS: [&str; 5] = ["uncut", "head+body", "4096", "64", "1"];

/// How many bytes a request and its room have at most that are also cut into single bytes.
const SMALL: usize = 512;

/// The cuttings under which the measured requests differ from those under a lower number. That into
/// single bytes is for small requests alone.
fn cuttings(b: &Batch) -> Vec<u32> {
    let cut = |c| {
        let of = |p: &oracle::batch::Place| {
            (pieces(p.request.len(), 40, c), pieces(p.room.len(), 16, c))
        };
        b.measured.iter().map(of).collect::<Vec<_>>()
    };
    let small = b.measured.iter().all(|p| p.request.len() + p.room.len() <= SMALL);
    let all = if small { CUTTINGS.len() } else { CUTTINGS.len() - 1 } as u32;
    (0..all).filter(|&c| (0..c).all(|d| cut(c) != cut(d))).collect()
}

// --- measuring ---
/// Nanoseconds of processor time of this thread: what other programs take in between doesn't count.
fn now() -> f64 {
    const THREAD_CPUTIME: i32 = 3;
    extern "C" {
        fn clock_gettime(clock: i32, t: *mut [i64; 2]) -> i32;
    }
    let mut t = [0i64; 2];
    assert_eq!(unsafe { clock_gettime(THREAD_CPUTIME, &mut t) }, 0);
    t[0] as f64 * 1e9 + t[1] as f64
}
fn time(run: Run, batch: &[u8], replies: &mut [u8], rounds: u32, cutting: u32) -> f64 {
    let start = now();
    std::hint::black_box(run(std::hint::black_box(batch), replies, rounds, cutting));
    now() - start
}
/// How many rounds take a side `ns`, and at least four times what the first round and all beside takes.
fn rounds_for(ns: f64, run: Run, batch: &[u8], replies: &mut [u8], cutting: u32) -> u32 {
    let one = (0..3).map(|_| time(run, batch, replies, 1, cutting)).fold(f64::MAX, f64::min);
    let ns = ns.max(4.0 * one);
    let mut rounds = 1u32;
    loop {
        let took = time(run, batch, replies, 1 + rounds, cutting) - one;
        if took >= ns / 4.0 || rounds >= 1 << 24 {
            return ((rounds as f64 * ns / took.max(1.0)).ceil() as u32).max(1);
        }
        rounds *= 2;
    }
}
/// Least, middle and greatest.
fn spread(mut all: Vec<f64>) -> [f64; 3] {
    all.sort_by(f64::total_cmp);
    [all[0], all[all.len() / 2], all[all.len() - 1]]
}

/// Where the replies of both sides differ first.
fn first_difference(b: &Batch, replies: &[Vec<u8>]) -> String {
    for (i, p) in b.measured.iter().enumerate() {
        let (x, y) = (&replies[0][p.room.clone()], &replies[1][p.room.clone()]);
        let len = x
            .get(..4)
            .map_or(0, |l| u32::from_le_bytes(l.try_into().unwrap()) as usize)
            .min(x.len());
        if let Some(at) = (0..len).find(|&at| x[at] != y[at]) {
            return format!("request {i}, byte {at} of {len} is {:02x}, not {:02x}", y[at], x[at]);
        }
    }
    "the replies are alike where a reply of the Rust stands: outcomes or lengths differ".into()
}

fn main() {
    let args: Vec<String> = std::env::args().skip(1).collect();
    let value = |flag: &str| args.iter().position(|a| a == flag).map(|i| args[i + 1].clone());
    let has = |flag: &str| args.iter().any(|a| a == flag);
    let number = |flag: &str, n: u32| value(flag).map_or(n, |v| v.parse().expect("a number"));
    let only = value("--only").unwrap_or_default();
    let (runs, ms) = (number("--runs", 7).max(1), number("--ms", 10));
    let chosen = classes().into_iter().filter(|c| c.name.contains(&only));
    let mut differ = 0;
    if !has("--digests") {
        print!("{:24}{:>10}{:>10}", "class", "cutting", "segments");
        for s in &SIDES {
            print!(
                "{:>14}{:>8}{:>8}{:>10}{:>12}",
                format!("{} ns", s.name),
                "mid",
                "max",
                "allocs",
                "bytes"
            );
        }
        println!("   ratio  of pairs");
    }
    for c in chosen {
        let b = Batch::parse(&c.batch).expect("a batch");
        let mut replies = vec![vec![0u8; b.room]; SIDES.len()];
        let mut flat = None;
        for cutting in cuttings(&b) {
            // the same replies from both, in each cutting and after any number of rounds
            let mut told = false;
            for rounds in [1, 2, 3] {
                for (s, r) in SIDES.iter().zip(&mut replies) {
                    let got = (s.run)(&c.batch, r, rounds, cutting);
                    let want = *flat.get_or_insert(got);
                    if got != want && !told {
                        (told, differ) = (true, differ + 1);
                        print!(
                            "{} {}: DIFFER: {} answers ",
                            c.name, CUTTINGS[cutting as usize], s.name
                        );
                        println!("{got:016x} after {rounds} rounds, not {want:016x}");
                    }
                }
            }
            if told {
                println!("  {}", first_difference(&b, &replies));
            }
            if has("--digests") {
                println!("{:24}{:>10}  {:016x}", c.name, CUTTINGS[cutting as usize], flat.unwrap());
                continue;
            }
            let wanted = SIDES
                .iter()
                .zip(&mut replies)
                .map(|(s, r)| rounds_for(ms as f64 * 1e6, s.run, &c.batch, r, cutting));
            let rounds: Vec<u32> = wanted.collect();
            let mut once = vec![f64::MAX; SIDES.len()];
            let mut many = vec![Vec::new(); SIDES.len()];
            for i in 0..runs as usize {
                for k in 0..SIDES.len() {
                    let k = (i + k) % SIDES.len(); // each begins by turns
                                                   // one round before and after, so that both least times come from quiet moments
                    let mut took =
                        |rounds| time(SIDES[k].run, &c.batch, &mut replies[k], rounds, cutting);
                    let before = took(1);
                    many[k].push(took(1 + rounds[k]));
                    once[k] = once[k].min(before).min(took(1));
                }
            }
            let segments = |p: &oracle::batch::Place| {
                pieces(p.request.len(), 40, cutting).len() + pieces(p.room.len(), 16, cutting).len()
            };
            print!(
                "{:24}{:>10}{:>10}",
                c.name,
                CUTTINGS[cutting as usize],
                segments(&b.measured[0])
            );
            let served = |k: usize| rounds[k] as f64 * c.n as f64;
            let ns =
                |k: usize| many[k].iter().map(|t| (t - once[k]) / served(k)).collect::<Vec<f64>>();
            let mut least = Vec::new();
            for (k, s) in SIDES.iter().enumerate() {
                let [min, mid, max] = spread(ns(k));
                let mut memory =
                    |rounds| counted(s, || (s.run)(&c.batch, &mut replies[k], rounds, cutting));
                let (few, more) = (memory(1), memory(3));
                let each = |a: u64, b: u64| (b as f64 - a as f64) / (2 * c.n) as f64;
                let above = |x: f64| (x / min - 1.0) * 100.0;
                print!("{min:>14.1}{:>7.1}%{:>7.1}%", above(mid), above(max));
                print!("{:>10.2}{:>12.0}", each(few.0, more.0), each(few.1, more.1));
                least.push(min);
            }
            let [_, pairs, _] =
                spread(ns(1).iter().zip(ns(0)).map(|(other, rust)| other / rust).collect());
            println!("{:>8.3}{pairs:>10.3}", least[1] / least[0]);
        }
    }
    std::process::exit((differ > 0) as i32);
}
