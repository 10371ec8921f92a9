//! Replays the script in the file that its argument names and prints the output: measured first, then put into a buffer of that size.
use std::io::Write;

extern "C" {
    fn scumbradel_replay(script: *const u8, script_size: usize, out: *mut u8, out_size: usize) -> usize;
}

/// Answers how long the output is. It stands at the start of `out` if it fits there; else nothing was written.
fn replay(script: &[u8], out: &mut [u8]) -> usize {
    // Two slices are what the function asks for: bytes that are there, and of which the written ones are no one else's.
    unsafe { scumbradel_replay(script.as_ptr(), script.len(), out.as_mut_ptr(), out.len()) }
}

fn main() -> std::io::Result<()> {
    let Some(name) = std::env::args_os().nth(1) else {
        eprintln!("usage: example SCRIPT");
        std::process::exit(2);
    };
    let script = std::fs::read(name)?;
    let mut out = vec![0; replay(&script, &mut [])];
    replay(&script, &mut out);
    std::io::stdout().write_all(&out)
}
