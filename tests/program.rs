// Runs a compiled program in a folder of its own and holds what it says against the lines expected of it.
#![allow(dead_code)] // each test uses a part

use std::env;
use std::fs::{self, File};
use std::io::Write;
use std::path::{Path, PathBuf};
use std::process::{Command, Output, Stdio};
use std::thread;
use std::time::Duration;

pub struct Options {
    program: Vec<String>,
    pub seed: u64,
    pub times: u64,
    keep: Option<PathBuf>,
}

impl Options {
    // [PROGRAM...] [--seed N] [--times N] [--keep FOLDER]
    pub fn read() -> Options {
        let mut options = Options { program: vec![], seed: 1, times: 1, keep: None };
        let mut args = env::args().skip(1);
        while let Some(word) = args.next() {
            let mut number = || args.next().and_then(|n| n.parse().ok()).expect("a number follows");
            match word.as_str() {
                "--seed" => options.seed = number(),
                "--times" => options.times = number(),
                "--keep" => options.keep = Some(PathBuf::from(args.next().expect("a folder follows"))),
                _ => options.program.push(word),
            }
        }
        // The program is run elsewhere than here.
        if let Some(path) = options.program.first_mut() {
            *path = fs::canonicalize(&path).expect("the program is there").display().to_string();
        }
        options
    }

    // What the program prints, its input a file.
    pub fn run(&self, contracts: Contracts, input: &[u8]) -> String {
        self.in_folder(contracts, input, |program, folder| program.stdin(Stdio::from(File::open(folder.join("input")).unwrap())).output())
    }

    // The same through a pipe that hands over few bytes at a time.
    pub fn run_dripping(&self, contracts: Contracts, input: &[u8], piece: usize) -> String {
        self.in_folder(contracts, input, |program, _| {
            let mut ran = program.stdin(Stdio::piped()).stdout(Stdio::piped()).spawn()?;
            let mut pipe = ran.stdin.take().unwrap();
            for bytes in input.chunks(piece) {
                // A program that has ended no longer reads.
                if pipe.write_all(bytes).is_err() {
                    break;
                }
                thread::sleep(Duration::from_micros(300));
            }
            drop(pipe);
            ran.wait_with_output()
        })
    }

    fn in_folder(&self, contracts: Contracts, input: &[u8], run: impl Fn(&mut Command, &Path) -> std::io::Result<Output>) -> String {
        let folder = env::temp_dir().join(format!("plethuran-{}", std::process::id()));
        fs::create_dir_all(&folder).unwrap();
        match contracts {
            Contracts::Missing => {}
            Contracts::Folder => fs::create_dir(folder.join("contracts")).unwrap(),
            Contracts::File(list) => fs::write(folder.join("contracts"), list).unwrap(),
        }
        fs::write(folder.join("input"), input).unwrap();
        let ran = run(Command::new(&self.program[0]).args(&self.program[1..]).current_dir(&folder), &folder).expect("the program runs");
        if let Some(keep) = &self.keep {
            fs::create_dir_all(keep).unwrap();
            for name in ["contracts", "input"] {
                let _ = fs::copy(folder.join(name), keep.join(name));
            }
        }
        fs::remove_dir_all(&folder).unwrap();
        let ending = if ran.status.success() { String::new() } else { format!("(it ended with {})\n", ran.status) };
        String::from_utf8_lossy(&ran.stdout).into_owned() + &ending
    }
}

// What stands in the program's folder under the name `contracts`.
#[derive(Clone, Copy)]
pub enum Contracts<'a> {
    Missing,
    Folder,
    File(&'a [u8]),
}

impl<'a> Contracts<'a> {
    pub fn bytes(self) -> Option<&'a [u8]> {
        match self {
            Contracts::File(list) => Some(list),
            Contracts::Missing | Contracts::Folder => None,
        }
    }
}

pub struct Held {
    pub passed: u64,
    pub failed: u64,
}

const SHOWN: u64 = 8;

impl Held {
    pub fn hold(&mut self, right: bool, otherwise: impl Fn() -> String) {
        if right {
            self.passed += 1;
        } else {
            self.failed += 1;
            if self.failed <= SHOWN {
                println!("{}", otherwise());
            }
        }
    }

    // Each line counts; `what` tells where a line comes from.
    pub fn lines(&mut self, expected: &[String], said: &str, what: impl Fn(usize) -> String) {
        let said: Vec<&str> = said.split_inclusive('\n').collect();
        for (i, line) in expected.iter().enumerate() {
            let got = said.get(i).copied();
            self.hold(got.and_then(|g| g.strip_suffix('\n')) == Some(line), || format!("{}: expected\n  {line}\ngot\n  {got:?}", what(i)));
        }
        let beyond = said.len().saturating_sub(expected.len());
        if beyond > 0 {
            self.hold(false, || format!("{}: {beyond} lines more than expected, the first {:?}", what(expected.len()), said[expected.len()]));
        }
    }

    // That the comparison notices: each of some lines, changed, must be held against what was said as a failure.
    pub fn notices(&mut self, expected: &[String], said: &str) {
        for at in (0..expected.len()).step_by(1 + expected.len() / 20) {
            for change in 0..3 {
                let mut wrong = expected.to_vec();
                match change {
                    0 => wrong[at].push('0'),
                    1 => wrong.insert(at, "take ok 0 0 0 0".into()),
                    _ => {
                        wrong.remove(at);
                    }
                }
                let mut tried = Held { passed: 0, failed: SHOWN };
                tried.lines(&wrong, said, |_| String::new());
                self.hold(tried.failed > SHOWN, || format!("a change of kind {change} at line {at} went unnoticed"));
            }
        }
    }

    pub fn end(&self) -> ! {
        println!("{} passed, {} failed", self.passed, self.failed);
        std::process::exit((self.failed > 0) as i32)
    }
}
