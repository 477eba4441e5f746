// lines TAPE PACK: keeps a machine, puts a tape and an empty pack into its store, and does one line at a time; prints
// each answer, and behind them what was typed and R0; saves a pack of its own as PACK.
use p11_sys::*;
use std::{env, fs, io, io::Write};

const LINES: [&str; 7] =
    ["load tape", "set 6 1000", "start 1000", "continue 10000", "regs", "mount 0 blank rw", "save 0 pack"];

type Call = unsafe extern "C" fn(*mut p11_handle, *mut u8, usize, *mut usize) -> i32;

/// A machine that is kept from line to line.
struct Machine {
    handle: p11_handle,
}

impl Machine {
    fn new(files: &[u8]) -> Result<Machine, i32> {
        let mut handle = p11_handle::NONE;
        // SAFETY: the handle holds no machine yet, and the pointer and the length are those of one slice.
        match unsafe { p11_new(28, 1024, files.as_ptr(), files.len(), &mut handle) } {
            P11_DONE => Ok(Machine { handle }),
            status => Err(status),
        }
    }

    fn put(&mut self, name: &str, bytes: &[u8]) -> Result<(), i32> {
        // SAFETY: the handle is this machine's alone, and each pointer and its length are those of one slice.
        match unsafe { p11_put_file(&mut self.handle, name.as_ptr(), name.len(), bytes.as_ptr(), bytes.len()) } {
            P11_DONE => Ok(()),
            status => Err(status),
        }
    }

    /// What a call hands out.
    fn handed(&mut self, call: Call) -> Result<Vec<u8>, i32> {
        let (mut out, mut length) = (Vec::new(), 0);
        loop {
            out.resize(length, 0);
            // SAFETY: the handle is this machine's alone, and the pointer and the length are those of one `Vec`.
            match unsafe { call(&mut self.handle, out.as_mut_ptr(), out.len(), &mut length) } {
                P11_DONE => return Ok(out),
                P11_TOO_SMALL => continue,
                status => return Err(status),
            }
        }
    }

    /// The text of a line's answer, and the bytes that were typed.
    fn line(&mut self, line: &str) -> Result<(Vec<u8>, Vec<u8>), i32> {
        // SAFETY: the handle is this machine's alone, and the pointer and the length are those of one slice.
        match unsafe { p11_line(&mut self.handle, line.as_ptr(), line.len()) } {
            P11_DONE => Ok((self.handed(p11_answer)?, self.handed(p11_typed_text)?)),
            status => Err(status),
        }
    }

    /// The last bytes under a name.
    fn file(&mut self, name: &str) -> Result<Vec<u8>, i32> {
        let (mut out, mut length) = (Vec::new(), 0);
        loop {
            out.resize(length, 0);
            // SAFETY: the handle is this machine's alone, and each pointer and its length are those of one slice or `Vec`.
            let status = unsafe {
                p11_file(&mut self.handle, name.as_ptr(), name.len(), out.as_mut_ptr(), out.len(), &mut length)
            };
            match status {
                P11_DONE => return Ok(out),
                P11_TOO_SMALL => continue,
                status => return Err(status),
            }
        }
    }

    fn registers(&mut self) -> Result<p11_registers, i32> {
        let mut registers = p11_registers::default();
        // SAFETY: the handle is this machine's alone.
        match unsafe { p11_regs(&mut self.handle, &mut registers) } {
            P11_DONE => Ok(registers),
            status => Err(status),
        }
    }
}

impl Drop for Machine {
    fn drop(&mut self) {
        // SAFETY: the handle is this machine's alone.
        unsafe { p11_drop(&mut self.handle) }
    }
}

fn main() -> io::Result<()> {
    let paths: Vec<String> = env::args().collect();
    let tape = fs::read(&paths[1])?;
    let failed = |status: i32| io::Error::other(format!("status {status}"));
    let mut machine = Machine::new(&[]).map_err(failed)?;
    machine.put("tape", &tape).map_err(failed)?;
    machine.put("blank", b"").map_err(failed)?;
    let mut typed = Vec::new();
    for line in LINES {
        let (answer, shown) = machine.line(line).map_err(failed)?;
        io::stdout().write_all(&answer)?;
        typed.extend(shown);
    }
    io::stdout().write_all(&typed)?;
    println!("R0 is {:06o}", machine.registers().map_err(failed)?.general[0]);
    fs::write(&paths[2], machine.file("pack").map_err(failed)?)
}
