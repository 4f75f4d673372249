//! A night's depots: *sheet* on many lists under `xargs -P`, on one core and on two.

use crate::effort::Effort;
use crate::lists::depot_list;
use crate::program::sheet_program;
use crate::repository;
use independent::random::Random;
use std::path::{Path, PathBuf};
use std::process::Command;
use std::time::Instant;
use std::{fs, io, thread};

/// What README.md has, with the folder, the number of processes and the program given.
const COMMAND: &str = "find \"$LISTS\" -name '*.list' -print0 | xargs -0 -P \"$CORES\" -n 100 \
    sh -c 'for list in \"$@\"; do \"$SHEET\" <\"$list\" >\"${list%.list}.sheet\"; done' sh";

/// Times are of a whole night, in seconds, by repeat.
pub struct Night {
    pub lists: usize,
    pub bytes: usize,
    pub one: Vec<f64>,
    pub two: Vec<f64>,
    /// How many processors this program may use.
    pub processors: usize,
}

impl Night {
    /// The lists a second, by repeat.
    pub fn per_second(&self, times: &[f64]) -> Vec<f64> {
        times.iter().map(|time| self.lists as f64 / time).collect()
    }
}

pub fn measure(effort: &Effort) -> io::Result<Night> {
    let folder = repository().join("target/bench/lists");
    if folder.exists() {
        fs::remove_dir_all(&folder)?;
    }
    fs::create_dir_all(&folder)?;
    let mut random = Random::new(effort.lists as u64);
    let mut night = Night {
        lists: effort.lists,
        bytes: 0,
        one: Vec::new(),
        two: Vec::new(),
        processors: thread::available_parallelism()?.get(),
    };
    let mut sheets = Vec::new();
    for number in 0..effort.lists {
        let (list, sheet) = depot_list(&mut random);
        night.bytes += list.len();
        fs::write(file(&folder, number, "list"), list)?;
        sheets.push(sheet);
    }
    for _ in 0..effort.nights {
        night.one.push(run(&folder, 1, &sheets)?);
        night.two.push(run(&folder, 2, &sheets)?);
    }
    fs::remove_dir_all(&folder)?;
    Ok(night)
}

fn file(folder: &Path, number: usize, ending: &str) -> PathBuf {
    folder.join(format!("{number:05}.{ending}"))
}

/// The time of a night on so many cores. All sheets are compared, and removed.
fn run(folder: &Path, cores: usize, sheets: &[Vec<u8>]) -> io::Result<f64> {
    let start = Instant::now();
    let ended = Command::new("sh")
        .args(["-c", COMMAND])
        .env("LISTS", folder)
        .env("CORES", cores.to_string())
        .env("SHEET", sheet_program())
        .status()?;
    let time = start.elapsed().as_secs_f64();
    assert!(ended.success());
    for (number, sheet) in sheets.iter().enumerate() {
        let path = file(folder, number, "sheet");
        assert!(fs::read(&path)? == *sheet, "another sheet: {number}");
        fs::remove_file(path)?;
    }
    Ok(time)
}
