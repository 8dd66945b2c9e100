//! oracle script|memory|rooms [IN OUT]: answers the lines of sessions as virtiofsd's own code does.
//!
//! - `script` answers as `test_sessions` does, with the calls of the scripted file system below each answer,
//!   which lines `answer ..` may tell what to answer;
//! - `memory` answers as `vfs_demo` does, over files in memory;
//! - `rooms` the same files, but for each request its outcome, its whole room and the options that are
//!   agreed after it, as `test_sessions` does after its line `refusals`.
//!
//! By itself it answers standard input. With two folders it answers each file of IN, by a server of its
//! own, into a file of the same name in OUT. A bad line ends a session, with status 2 of the first form.
use oracle::filesystem::FileSystem;
use oracle::memfs::MemFs;
use oracle::noted::Notes;
use oracle::request::{parse_line, serve};
use oracle::seededfs::SeededFs;
use oracle::server::Server;
use oracle::told::{parse_told, Answers};
use std::fmt::Write as _;
use std::io::{self, Read, Write as _};
use std::sync::atomic::Ordering;

#[derive(Clone, Copy, PartialEq)]
enum Way {
    Script,
    Memory,
    Rooms,
}

fn main() {
    let args: Vec<String> = std::env::args().skip(1).collect();
    let way = match args.first().map(String::as_str) {
        Some("script") => Way::Script,
        Some("memory") => Way::Memory,
        Some("rooms") => Way::Rooms,
        _ => panic!("the first argument is script, memory or rooms"),
    };
    if std::env::var_os("ORACLE_PANICS").is_none() {
        std::panic::set_hook(Box::new(|_| {}));
    }
    if let [_, from, to] = &args[..] {
        for file in std::fs::read_dir(from).expect("a folder").flatten() {
            let (answers, _) = session(way, &std::fs::read(file.path()).expect("a session"));
            std::fs::write(std::path::Path::new(to).join(file.file_name()), answers)
                .expect("a folder");
        }
        return;
    }
    let mut input = Vec::new();
    io::stdin().lock().read_to_end(&mut input).expect("standard input");
    let (answers, status) = session(way, &input);
    io::stdout().lock().write_all(answers.as_bytes()).expect("standard output");
    std::process::exit(status);
}

/// The answers to a session's lines, and the status that the program ends with.
fn session(way: Way, input: &[u8]) -> (String, i32) {
    let (answers, notes) = (Answers::default(), Notes::default());
    if way == Way::Script {
        let fs = SeededFs::new(answers.clone(), notes.clone());
        answer_all(fs, answers, notes, way, input)
    } else {
        answer_all(MemFs::default(), answers, notes, way, input)
    }
}

/// Sets the limit of all servers by the first line, or to what it is without one.
#[cfg(later)]
fn set_limit(line: Option<&&[u8]>) -> bool {
    let limit = line.and_then(|line| oracle::request::parse_limit(line));
    oracle::server::LIMIT.store(limit.unwrap_or(1 << 20), Ordering::Relaxed);
    limit.is_some()
}
#[cfg(not(later))]
fn set_limit(_line: Option<&&[u8]>) -> bool {
    false
}

fn answer_all<F: FileSystem + Sync>(
    fs: F,
    answers: Answers,
    notes: Notes,
    way: Way,
    input: &[u8],
) -> (String, i32) {
    let server = Server::new(fs);
    let mut out = String::new();
    let mut lines: Vec<&[u8]> = input.split(|&c| c == b'\n').collect();
    if lines.last().is_some_and(|line| line.is_empty()) {
        lines.pop();
    }
    let before = set_limit(lines.first()) as usize;
    for (i, text) in lines.iter().enumerate().skip(before) {
        if way == Way::Script && text.starts_with(b"#") {
            continue;
        }
        let told = text.strip_prefix(b"answer ").filter(|_| way == Way::Script);
        if let Some(told) = told.and_then(parse_told) {
            answers.add(told);
            continue;
        }
        let Some(line) = parse_line(text) else {
            if way != Way::Rooms {
                writeln!(out, "bad line {}", i + 1).unwrap();
            }
            return (out, 2);
        };
        let answer = serve(&server, &line);
        if way == Way::Rooms {
            let options = server.options.load(Ordering::Relaxed);
            writeln!(out, "{}\nnow options 0x{options:x}", answer.whole()).unwrap();
            continue;
        }
        writeln!(out, "{}", answer.text()).unwrap();
        for note in notes.take() {
            writeln!(out, "  {note}").unwrap();
        }
    }
    (out, 0)
}
