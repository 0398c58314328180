//! The exported program against what the repository says of the proved one: its examples and its table of cases.
use std::fs::{self, File};
use std::path::{Path, PathBuf};
use std::process::Command;

fn repository() -> PathBuf {
    PathBuf::from(include_str!("repository").trim_end())
}

/// The files of these folders of examples with this ending.
fn examples(ending: &str) -> Vec<PathBuf> {
    let top = repository().join("examples");
    let files = [top.clone(), top.join("nodes")].into_iter().flat_map(|folder| fs::read_dir(folder).unwrap());
    let mut found: Vec<PathBuf> = files.map(|file| file.unwrap().path()).collect();
    found.retain(|path| path.extension().is_some_and(|e| e == ending));
    found.sort();
    found
}

/// What the program writes of a schedule, and its exit status.
fn replayed(schedule: &Path) -> (String, Option<i32>) {
    let mut program = Command::new(env!("CARGO_BIN_EXE_swp"));
    let ran = program.arg("replay").stdin(File::open(schedule).unwrap()).output().unwrap();
    (String::from_utf8(ran.stdout).unwrap(), ran.status.code())
}

#[test]
fn each_schedule_gives_its_transcript() {
    let schedules = examples("schedule");
    assert!(schedules.len() >= 50, "{} schedules", schedules.len());
    for schedule in schedules {
        let wanted = fs::read_to_string(schedule.with_extension("transcript")).unwrap();
        // One ends with a damage that the CRC doesn't show, and its transcript has no last line.
        let status = if wanted.lines().last().is_some_and(|line| line.starts_with("done ")) { 0 } else { 4 };
        assert!(replayed(&schedule) == (wanted, Some(status)), "{schedule:?} gives something else");
    }
}

#[test]
fn each_case_of_the_table_is_so() {
    let cases = repository().join(".ci/cases");
    let ran = Command::new("python3").arg(cases).arg(env!("CARGO_BIN_EXE_swp")).output().unwrap();
    assert!(ran.status.success(), "{}", String::from_utf8_lossy(&ran.stdout));
    let said = String::from_utf8(ran.stdout).unwrap();
    assert!(said.ends_with(" 0 differences\n"), "{said}");
}

#[test]
fn the_quick_start_brings_its_message() {
    let program = Path::new(env!("CARGO_BIN_EXE_swp")).with_file_name("examples").join("quick_start");
    let ran = Command::new(program).output().unwrap();
    assert_eq!(String::from_utf8(ran.stdout).unwrap(), "host 02 is up\ncontroller: pipe 01 brought 03\nhost 02: pipe 01 brought 80\n");
}
