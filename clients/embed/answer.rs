//! The same in Rust: the few unsafe lines stand in `Session`, whose methods are safe.
//! usage: answer_rs TESS KIND ROOM [RULES], as answer.c
use std::io::{BufRead, Write};
use std::ptr::{NonNull, null_mut};
use std::{env, fs, io, process};

/// A handle, and nothing that Rust may look into.
#[repr(C)]
struct Handle {
    hidden: [u8; 0],
}

#[link(name = "walker_c", kind = "static")]
unsafe extern "C" {
    fn wagbirelu_open(
        tess: *const u8, tess_length: usize, rules: *const u8, rules_length: usize, kind: u32,
        line: *mut u8, line_room: usize, session: *mut *mut Handle,
    ) -> u32;
    fn wagbirelu_learn(
        tess: *const u8, tess_length: usize, cells: u32, kind: u32,
        line: *mut u8, line_room: usize, session: *mut *mut Handle,
    ) -> u32;
    fn wagbirelu_answer(
        session: *mut Handle, line: *const u8, length: usize, room: *mut u8, size: usize,
    ) -> u64;
    fn wagbirelu_close(session: *mut Handle);
}

/// A session, which stays on its thread and is closed where it is dropped.
struct Session {
    handle: NonNull<Handle>,
    room: Vec<u8>,
}

/// Why there is no session or no answer: the status and the line of the program.
struct Refusal {
    status: i32,
    line: String,
}

impl Session {
    fn open(tess: &[u8], rules: Option<&[u8]>, kind: u32, room: usize) -> Result<Session, Refusal> {
        let mut line = [0u8; 64];
        let mut handle = null_mut();
        // Slices of Rust have a pointer that is not null, and the call keeps none of these.
        let status = unsafe {
            match rules {
                Some(rules) => wagbirelu_open(
                    tess.as_ptr(), tess.len(), rules.as_ptr(), rules.len(), kind,
                    line.as_mut_ptr(), line.len(), &mut handle,
                ),
                None => wagbirelu_learn(
                    tess.as_ptr(), tess.len(), 50_000, kind, line.as_mut_ptr(), line.len(), &mut handle,
                ),
            }
        };
        match NonNull::new(handle) {
            Some(handle) if status == 0 => Ok(Session { handle, room: vec![0; room] }),
            _ => {
                let said = line.split(|byte| *byte == 0).next().unwrap_or_default();
                let line = String::from_utf8_lossy(said).into_owned();
                Err(Refusal { status: status as i32, line })
            }
        }
    }

    /// What a line is answered with, appended to `out`.
    fn answer(&mut self, line: &[u8], out: &mut Vec<u8>) -> Result<(), Refusal> {
        let mut line = line;
        loop {
            let (room, size) = (self.room.as_mut_ptr(), self.room.len());
            let handle = self.handle.as_ptr();
            let waited = unsafe { wagbirelu_answer(handle, line.as_ptr(), line.len(), room, size) };
            if waited > u64::MAX - 64 {
                let status = waited.wrapping_neg() as i32;
                return Err(Refusal { status, line: String::new() });
            }
            out.extend_from_slice(&self.room[..size.min(waited as usize)]);
            if waited as usize <= size {
                return Ok(());
            }
            line = b"";
        }
    }
}

impl Drop for Session {
    fn drop(&mut self) {
        unsafe { wagbirelu_close(self.handle.as_ptr()) }
    }
}

fn run(words: &[String]) -> Result<(), Refusal> {
    let read = |name: &String| fs::read(name).map_err(|_| Refusal { status: 3, line: String::new() });
    let number = |word: &String| word.parse::<u32>().map_err(|_| Refusal { status: 2, line: String::new() });
    let tess = read(&words[1])?;
    let rules = words.get(4).map(read).transpose()?;
    let (kind, room) = (number(&words[2])?, number(&words[3])?);
    let mut session = Session::open(&tess, rules.as_deref(), kind, room as usize)?;
    let mut out = Vec::new();
    for line in io::stdin().lock().split(b'\n') {
        session.answer(&line.map_err(|_| Refusal { status: 12, line: String::new() })?, &mut out)?;
    }
    io::stdout().write_all(&out).map_err(|_| Refusal { status: 13, line: String::new() })
}

fn main() {
    let words: Vec<String> = env::args().collect();
    if let Err(refusal) = run(&words) {
        print!("{}", refusal.line);
        process::exit(refusal.status);
    }
}
