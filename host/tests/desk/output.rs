//! Standard output that fails, and signs of life on standard error.

use crate::*;
use std::fs::File;
use std::io::{self, Read};
use std::thread::sleep;

/// A device without room, where there is one.
fn full() -> io::Result<File> {
    File::options().write(true).open("/dev/full")
}

#[test]
fn standard_output_that_cannot_be_written() {
    for line in ["day", "unpack samples/gfs-gust-144x73", "--help", "list samples/gfs-gust-144x73.grib2"] {
        // Where there is such a file, all that is written to it fails for want of room.
        if let Ok(full) = full() {
            let ran = Ran::from(command(&top(), &words(line)).stdout(full).output().unwrap());
            assert_eq!(ran.status, Some(HOST), "{ran:?}");
            assert_eq!(ran.err, "desk: standard output cannot be written: No space left on device (os error 28)\n");
        }
        // Whoever reads has had enough.
        let mut child = command(&top(), &words(line)).stdout(Stdio::piped()).stderr(Stdio::piped()).spawn().unwrap();
        drop(child.stdout.take());
        let ran = Ran::from(child.wait_with_output().unwrap());
        assert_eq!((ran.status, ran.err.as_str()), (Some(0), ""), "{line}");
    }
}

/// Where something fails after writing, the message says what stands.
#[test]
fn standard_output_that_fails_after_writing() {
    let folder = scratch("after-writing");
    let message = GUST.file("grib2").display().to_string();
    let Ok(full) = full() else { return };
    fs::write(folder.join("text"), "# levels, not gusts: bits 4, greatest level 9, points 1\n3\n").unwrap();
    let levels = "levels --write text --to levels".to_string();
    for line in [format!("pack {message} --to cut"), format!("split {message} --to whole"), levels] {
        let ran = Ran::from(command(&folder, &words(&line)).stdout(full.try_clone().unwrap()).output().unwrap());
        let name = line.rsplit(' ').next().unwrap();
        let stand = format!("{name}.s5 and {name}.s7 stand all the same");
        let full = "desk: standard output cannot be written: No space left on device (os error 28)";
        assert_eq!((ran.status, ran.err), (Some(HOST), format!("{full}; {stand}\n")));
    }
    let written = ["cut.s5", "cut.s7", "levels.s5", "levels.s7", "text", "whole.s5", "whole.s7"];
    assert_eq!(names_in(&folder), written);
    results(&folder, &words("check cut --lookahead 4"));
}

/// Nobody takes the results for more than a second, so a step takes longer: then, and only then, its progress is shown.
#[test]
fn progress_of_a_long_step() {
    let line = ["unpack", "samples/ndfd-conus-1073x689"];
    let mut child = command(&top(), &line).stdout(Stdio::piped()).stderr(Stdio::piped()).spawn().unwrap();
    sleep(Duration::from_millis(2_500));
    let mut printed = String::new();
    child.stdout.take().unwrap().read_to_string(&mut printed).unwrap();
    let ran = Ran::from(child.wait_with_output().unwrap());
    assert_eq!((ran.status, printed.lines().count(), ran.err.as_str()), (Some(0), 739_297, ""));
    let said =
        |line: &String| Some(plain(line.strip_prefix("desk: printing, ")?.split_once(" of 739,297 points, ")?.0));
    let shown: Vec<usize> = ran.progress.iter().filter_map(said).map(|printed| printed.parse().unwrap()).collect();
    assert!(shown.len() == 1 && (1..739_297).contains(&shown[0]), "{ran:?}");
    // Where they are taken at once they are the same.
    assert_eq!(results(&top(), &line), printed);
}
