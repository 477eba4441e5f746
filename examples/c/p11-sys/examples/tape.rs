// tape TAPE PACK: loads an absolute tape, runs it, prints what it typed and R0, and saves a pack of its own as PACK.
use p11_sys::{P11_DONE, P11_TOO_SMALL, p11_session, p11_typed};
use std::{env, fs, io, io::Write};

const SCRIPT: &[u8] =
    b"load tape\nset 6 1000\nstart 1000\ncontinue 10000\nregs\nmount 0 blank rw\nsave 0 pack\n";

type Call = unsafe extern "C" fn(
    u32, u32, *const u8, usize, *const u8, usize, *mut u8, usize, *mut usize, *mut u8, usize, *mut usize,
) -> i32;

/// The row of files.
fn row(files: &[(&[u8], &[u8])]) -> Vec<u8> {
    let parts = files.iter().flat_map(|(name, bytes)| [*name, *bytes]);
    parts.flat_map(|part| [&(part.len() as u32).to_le_bytes(), part].concat()).collect()
}

/// The bytes at the front of a row, and what follows them.
fn take(row: &[u8]) -> (&[u8], &[u8]) {
    let (length, rest) = row.split_at(4);
    rest.split_at(u32::from_le_bytes(length.try_into().unwrap()) as usize)
}

/// What a call hands out, and the row of the files after it; or the number of its status.
fn session(call: Call, script: &[u8], files: &[u8]) -> Result<(Vec<u8>, Vec<u8>), i32> {
    let (mut out, mut left) = (Vec::new(), Vec::new());
    let (mut out_length, mut left_length) = (0, 0);
    loop {
        out.resize(out_length, 0);
        left.resize(left_length, 0);
        // SAFETY: each pointer and length is that of one slice or `Vec`, borrowed for the call, and none overlap.
        let status = unsafe {
            call(28, 1024, script.as_ptr(), script.len(), files.as_ptr(), files.len(), out.as_mut_ptr(), out.len(),
                 &mut out_length, left.as_mut_ptr(), left.len(), &mut left_length)
        };
        match status {
            P11_DONE => return Ok((out, left)),
            P11_TOO_SMALL => continue,
            other => return Err(other),
        }
    }
}

fn main() -> io::Result<()> {
    let paths: Vec<String> = env::args().collect();
    let tape = fs::read(&paths[1])?;
    let files = row(&[(b"tape", &tape), (b"blank", b"")]);
    let failed = |status: i32| io::Error::other(format!("status {status}"));
    let (answers, left) = session(p11_session, SCRIPT, &files).map_err(failed)?;
    let (typed, _) = session(p11_typed, SCRIPT, &files).map_err(failed)?;
    io::stdout().write_all(&typed)?;
    let answers = String::from_utf8_lossy(&answers);
    if let Some((_, registers)) = answers.split_once("REGS ") {
        println!("R0 is {}", &registers[..6]);
    }
    let mut row = &left[..];
    while !row.is_empty() {
        let (name, rest) = take(row);
        let (bytes, after) = take(rest);
        if name == b"pack" {
            fs::write(&paths[2], bytes)?;
        }
        row = after;
    }
    Ok(())
}
