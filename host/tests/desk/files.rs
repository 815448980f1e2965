//! Files that are no map, and files that cannot be written.

use crate::*;
use std::fs::File;
use std::io::{stderr, Write};

/// Files that are not what they should be.
#[test]
fn files_that_are_no_map() {
    let folder = scratch("files");
    let good5 = complex(4, CASE);
    let good7 = section7(&CASE_PAYLOAD);
    let changed = |octets: &[u8], place: usize, octet: u8| {
        let mut octets = octets.to_vec();
        octets[place] = octet;
        octets
    };
    let refused = |found: &str| (NO_SECTION5, no_section5("map.s5", found));
    let own = |sentence: &str| (HOST, sentence.to_string());
    let with_behind = |octets: &[u8]| [octets, &[0]].concat();
    for (section5, section7, (status, sentence)) in [
        (vec![], good7.clone(), refused("too few octets for a Section 5: 0")),
        (good5[..10].to_vec(), good7.clone(), refused("too few octets for a Section 5: 10")),
        (good5[..46].to_vec(), good7.clone(), refused("Section 5 says that it has 47 octets, and 46 are there")),
        (good7.clone(), good5.clone(), refused("the section number is 7, and not 5")),
        (changed(&good5, 4, 7), good7.clone(), refused("the section number is 7, and not 5")),
        (
            changed(&good5, 0, 255),
            good7.clone(),
            refused("Section 5 says that it has 4278190127 octets, which is not the length of template 5.2"),
        ),
        (
            changed(&good5, 10, 0),
            good7.clone(),
            refused("Section 5 is of template 5.0, whose numbers are not read here"),
        ),
        (
            changed(&good5, 10, 3),
            good7.clone(),
            refused("Section 5 says that it has 47 octets, which is not the length of template 5.3"),
        ),
        (
            changed(&good5, 10, 200),
            good7.clone(),
            refused(
                "Section 5 is of template 5.200: what its levels stand for is not read here, and desk levels alone shows them",
            ),
        ),
        // A refusal comes before what is wrong with Section 7.
        (changed(&good5, 4, 7), vec![], refused("the section number is 7, and not 5")),
        (
            with_behind(&good5),
            good7.clone(),
            own("map.s5: octets stand behind Section 5: it says that it has 47, and 48 are there"),
        ),
        (good5.clone(), vec![], own("map.s7: too few octets for a Section 7: 0")),
        (good5.clone(), good7[..4].to_vec(), own("map.s7: too few octets for a Section 7: 4")),
        (good5.clone(), good7[..7].to_vec(), own("map.s7: Section 7 says that it has 8 octets, and 7 are there")),
        (
            good5.clone(),
            with_behind(&good7),
            own("map.s7: octets stand behind Section 7: it says that it has 8, and 9 are there"),
        ),
        (good5.clone(), changed(&good7, 4, 5), own("map.s7: the section number is 5, and not 7")),
        (
            good5.clone(),
            changed(&good7, 0, 1),
            own("map.s7: Section 7 says that it has 16777224 octets, and 8 are there"),
        ),
        (good5.clone(), good5.clone(), own("map.s7: the section number is 5, and not 7")),
    ] {
        write_map(&folder, "map", &section5, &section7);
        for line in [
            "unpack map",
            "unpack map.s5",
            "info map",
            "check map --lookahead 1",
            "pack map --columns 4 --rows 1 --to cut",
            "point map --columns 4 --rows 1 --column 1 --row 1",
        ] {
            assert_eq!(told(&folder, &words(line), status), sentence, "{line}");
        }
    }

    write_case(&folder);
    fs::create_dir(folder.join("folder.s5")).unwrap();
    fs::create_dir(folder.join("folder")).unwrap();
    copy(&folder.join("map.s5"), &folder.join("half.s5"));
    let none = |name: &str| format!("there is no map {name}: there is neither a file of this name nor {name}.s5");
    let wrong = |sentence: &str| sentence.to_string();
    for (line, sentence) in [
        ("unpack none", none("none")),
        ("unpack none.grib2:2", none("none.grib2:2")),
        ("unpack map/map", none("map/map")),
        ("unpack no\nline\t", none("no?line?")),
        ("unpack map.s5/map", none("map.s5/map")),
        ("unpack none.s5", wrong("none.s5 cannot be read: No such file or directory (os error 2)")),
        ("unpack half", wrong("half.s7 cannot be read: No such file or directory (os error 2)")),
        ("unpack folder", wrong("folder.s5 is not a file")),
        ("unpack .", wrong(". is not a file")),
        (
            "pack map --columns 5 --rows 1 --to cut",
            wrong("the map has 4 points, and 5 columns x 1 row, not alternate, would be 5"),
        ),
        (
            "pack map --columns 1 --rows 3 --to cut",
            wrong("the map has 4 points, and 1 column x 3 rows, not alternate, would be 3"),
        ),
        (
            "unpack map --csv --columns 3 --rows 1 --alternate",
            wrong("the map has 4 points, and 3 columns x 1 row, alternate, would be 3"),
        ),
        (
            "pack map --columns 4294967295 --rows 4294967295 --to cut",
            wrong(
                "the map has 4 points, and 4,294,967,295 columns x 4,294,967,295 rows, not alternate, \
                 would be 18,446,744,065,119,617,025",
            ),
        ),
        (
            "point map --columns 4294967295 --rows 4294967295 --column 4294967295 --row 4294967295",
            wrong(
                "the map has 4 points, and 4,294,967,295 columns x 4,294,967,295 rows, not alternate, \
                 would be 18,446,744,065,119,617,025",
            ),
        ),
        (
            "point map --columns 65536 --rows 65536 --column 1 --row 1",
            wrong("the map has 4 points, and 65,536 columns x 65,536 rows, not alternate, would be 4,294,967,296"),
        ),
    ] {
        assert_eq!(told(&folder, &words(line), HOST), sentence, "{line}");
    }
    assert_eq!(told(&folder, &["unpack", ""], HOST), none(""));

    // Longer than any map, and it takes no room on the disk.
    File::create(folder.join("long.s5")).unwrap().set_len((1 << 28) + 1).unwrap();
    assert_eq!(told(&folder, &["unpack", "long"], HOST), "long.s5 has more than 268,435,456 octets, and is not read");
    File::create(folder.join("long.grib2")).unwrap().set_len((1 << 30) + 1).unwrap();
    for command in ["unpack", "list"] {
        let sentence = told(&folder, &[command, "long.grib2"], HOST);
        assert_eq!(sentence, "long.grib2 has more than 1,073,741,824 octets, and is not read");
    }
}

/// No file is written over, and of two files there are both or none, and nothing else.
#[test]
fn files_that_cannot_be_written() {
    let folder = scratch("written");
    let pack = format!("pack {} --to ", GUST.words());
    fs::write(folder.join("first.s5"), "kept").unwrap();
    fs::write(folder.join("second.s7"), "kept").unwrap();
    for (name, sentence) in [
        ("first", "first.s5 is there already, and the desk writes over no file"),
        ("first.s7", "first.s5 is there already, and the desk writes over no file"),
        ("second", "second.s7 is there already, and the desk writes over no file"),
        ("none/cut", "none/cut.s5 cannot be written: No such file or directory (os error 2)"),
        ("first.s5/cut", "first.s5/cut.s5 cannot be written: Not a directory (os error 20)"),
    ] {
        assert_eq!(told(&folder, &words(&format!("{pack}{name}")), HOST), sentence);
        assert_eq!(names_in(&folder), ["first.s5", "second.s7"]);
        assert_eq!(fs::read(folder.join("first.s5")).unwrap(), b"kept");
        assert_eq!(fs::read(folder.join("second.s7")).unwrap(), b"kept");
    }
    results(&folder, &words(&format!("{pack}cut")));
    assert_eq!(names_in(&folder), ["cut.s5", "cut.s7", "first.s5", "second.s7"]);
    let sentence = told(&folder, &words(&format!("{pack}cut")), HOST);
    assert_eq!(sentence, "cut.s5 is there already, and the desk writes over no file");
    let split = format!("split {} --to cut", GUST.file("grib2").display());
    assert_eq!(told(&folder, &words(&split), HOST), sentence);
    assert_eq!(names_in(&folder).len(), 4);
}

/// Names that are no file's are refused before anything is done.
#[test]
fn names_to_write_to() {
    let folder = scratch("names");
    fs::create_dir(folder.join("dir")).unwrap();
    for name in ["", "/", "dir/", ".", "..", "dir/.", "dir/..", "none/"] {
        for line in ["pack none --columns 1 --rows 1", "split none:1"] {
            let mut words = words(line);
            let to = format!("--to={name}");
            words.push(&to);
            let sentence = told(&folder, &words, HOST);
            assert!(sentence.starts_with(&format!("--to {name} names no file; desk help ")), "{sentence}");
        }
    }
    write_case(&folder);
    for name in ["dir/cut", "cut", "./cut-2", "dir", "cut.3", "-cut", "--cut", "a name"] {
        let to = format!("--to={name}");
        let printed = results(&folder, &["pack", "map", "--columns", "4", "--rows", "1", &to]);
        assert_eq!(after(&printed, "written"), format!("{name}.s5 and {name}.s7"));
        assert!(folder.join(format!("{name}.s5")).exists() && folder.join(format!("{name}.s7")).exists());
        // A name that begins with - stands behind --.
        assert_eq!(results(&folder, &["unpack", "--", name]), "5\n6\n5\n7\n");
    }
}

/// A disk with too little room, here a limit on how long a file may be: nothing is left. Where the command is ended in the
/// middle of it, there is no file under either name.
#[test]
fn room_for_half_a_map() {
    let folder = scratch("room");
    for (signal, status) in [("trap '' XFSZ; ", Some(HOST)), ("", None)] {
        let line = format!("{signal}ulimit -f 1; exec \"$0\" pack {} --to cut", GUST.words());
        let output = Command::new("sh")
            .args(["-c", &line, env!("CARGO_BIN_EXE_desk")])
            .current_dir(&folder)
            .stdin(Stdio::null())
            .output()
            .unwrap();
        let ran = Ran::from(output);
        assert_eq!((ran.status, ran.out.as_str()), (status, ""), "{ran:?}");
        let names = names_in(&folder);
        if status.is_some() {
            assert_eq!(ran.err, "desk: cut.s7 cannot be written: File too large (os error 27)\n");
            assert_eq!(names, Vec::<String>::new());
        }
        assert!(!names.iter().any(|name| name == "cut.s5" || name == "cut.s7"), "{names:?}");
    }
}

/// A file system without links, here a tracer that lets them fail, where there is one: the same files are written, and
/// none over another.
#[test]
fn files_without_links() {
    let traced = |folder: &Path, program: &str, words: &[&str]| {
        let fail = ["-f", "-o", "/dev/null", "-e", "inject=link,linkat:error=EPERM", program];
        Command::new("strace").args(fail).args(words).current_dir(folder).stdin(Stdio::null()).output()
    };
    let folder = scratch("links");
    if !traced(&folder, "true", &[]).is_ok_and(|ran| ran.status.success()) {
        // Written past the test harness, which keeps what a test that passes prints.
        stderr().write_all(b"not run: no strace to let links fail\n").unwrap();
        return;
    }
    let (from, whole) = (GUST.words(), scratch("linked"));
    results(&whole, &words(&format!("pack {from} --to cut")));
    fs::write(folder.join("other.s7"), "kept").unwrap();
    for (name, status) in [("cut", 0), ("cut", HOST), ("other", HOST)] {
        let line = format!("pack {from} --to {name}");
        let ran = Ran::from(traced(&folder, env!("CARGO_BIN_EXE_desk"), &words(&line)).unwrap());
        assert_eq!(ran.status, Some(status), "{ran:?}");
        assert_eq!(ran.err.contains("is there already, and the desk writes over no file"), status != 0, "{ran:?}");
        assert_eq!(names_in(&folder), ["cut.s5", "cut.s7", "other.s7"]);
    }
    for file in ["cut.s5", "cut.s7"] {
        assert_eq!(fs::read(folder.join(file)).unwrap(), fs::read(whole.join(file)).unwrap());
    }
    assert_eq!(fs::read(folder.join("other.s7")).unwrap(), b"kept");
}
