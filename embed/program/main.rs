//! The program `swp` over Rust's own standard library: the words, texts and statuses of the one that is proved.
use rtstd::alloc::Global;
use std::fs::{File, OpenOptions};
use std::io::{Read, Write};
use std::os::unix::fs::FileExt;
use std::process::ExitCode;
use swp_base::{Failed, Nv, Sink, Source};

/// The file that keeps a node's memory, in the folder that the program runs in.
const MEMORY: &str = "swp.nv";

/// How many bytes it has.
const LENGTH: u32 = 65_536;

struct Input;

impl Source for Input {
    fn read(&mut self, buf: &mut [u8]) -> Result<usize, Failed> {
        std::io::stdin().lock().read(buf).map_err(|_| Failed)
    }
}

struct Output;

impl Sink for Output {
    fn write(&mut self, bytes: &[u8]) -> Result<usize, Failed> {
        let mut out = std::io::stdout().lock();
        match out.write(bytes) {
            Ok(count) if count > 0 => out.flush().map(|()| count).map_err(|_| Failed),
            _ => Err(Failed),
        }
    }
}

/// The file, which is opened at the first call, and made all FF where there is none.
struct FileNv {
    file: Option<File>,
}

impl FileNv {
    fn open(&mut self) -> Result<&mut File, Failed> {
        if self.file.is_none() {
            self.file = Some(opened().map_err(|_| Failed)?);
        }
        self.file.as_mut().ok_or(Failed)
    }
}

fn opened() -> std::io::Result<File> {
    match OpenOptions::new().read(true).write(true).open(MEMORY) {
        Err(error) if error.kind() == std::io::ErrorKind::NotFound => {
            let mut file = OpenOptions::new().read(true).write(true).create_new(true).open(MEMORY)?;
            file.write_all(&[0xFF; LENGTH as usize])?;
            Ok(file)
        }
        other => other,
    }
}

impl Nv for FileNv {
    fn size(&self) -> u32 {
        LENGTH
    }

    fn read(&mut self, at: u32, buf: &mut [u8]) -> Result<(), Failed> {
        self.open()?.read_exact_at(buf, u64::from(at)).map_err(|_| Failed)
    }

    fn write(&mut self, at: u32, bytes: &[u8]) -> Result<(), Failed> {
        self.open()?.write_all_at(bytes, u64::from(at)).map_err(|_| Failed)
    }
}

fn main() -> ExitCode {
    let mut words = rtstd::vec::Vec::new(Global);
    for word in std::env::args_os().skip(1) {
        let word = rtstd::string::String::from_str(Global, &word.to_string_lossy());
        if word.and_then(|word| words.push(word)).is_err() {
            return ExitCode::from(9);
        }
    }
    let ended = swp_tool::run(Global, &words, &mut Input, &mut Output, FileNv { file: None });
    let mut text = rtstd::vec::Vec::new(Global);
    let code = swp_tool::exit_code(&ended.status);
    if code != 0 && swp_tool::status_text(Global, &ended.status, &mut text).is_ok() {
        let _ = writeln!(std::io::stderr(), "{}", std::string::String::from_utf8_lossy(&text));
    }
    ExitCode::from(code)
}
