//! The words of the command line, and the help.

use crate::*;

/// Command lines that ask for nothing.
#[test]
fn words_that_are_no_command() {
    let folder = scratch("words");
    write_case(&folder);
    for (line, what) in [
        ("dusk", "there is no command dusk"),
        ("--columns", "there is no command --columns"),
        ("du\nsk", "there is no command du?sk"),
        ("help dusk", "there is no command dusk"),
    ] {
        let sentence = format!("{what}; desk --help says how the desk is asked");
        assert_eq!(told(&folder, &words(line), HOST), sentence, "{line}");
    }
    let missing = "a command is missing; desk --help says how the desk is asked";
    assert_eq!(told(&folder, &[], HOST), missing);

    let pack = "pack map --columns 4 --rows 1";
    let point = "point map --columns 4 --rows 1";
    let no_option = |command: &str, option: &str| {
        format!("desk {command} has no option {option} (a name that begins with - stands behind --)")
    };
    let no_number = |what: &str| format!("{what} is no whole number that the desk takes");
    let no_span = |what: &str| format!("{what} is not of the form FIRST-LAST, such as 13-28");
    let said = |what: &str| what.to_string();
    for (line, what) in [
        (said("unpack"), said("the map is missing")),
        (said("list"), said("the file is missing")),
        (said("unpack map map"), said("map is one word too many")),
        (said("day map"), said("map is one word too many")),
        (said("unpack map --rows"), said("--rows needs a value")),
        (said("unpack map --cut-rows 1-2"), no_option("unpack", "--cut-rows")),
        (said("unpack --all map"), no_option("unpack", "--all")),
        (said("unpack -x"), no_option("unpack", "-x")),
        (said("info --groups=yes map"), said("--groups takes no value")),
        (format!("{point} --column 1 --row 1 --group=1"), said("--group takes no value")),
        (format!("{point} --column 1 --row 1 --groups"), no_option("point", "--groups")),
        (said("day --samples"), said("--samples needs a value")),
        (said("check map"), said("--lookahead is missing")),
        (said("unpack map --columns 2 --rows 2"), said("a grid is typed without --csv")),
        (said("unpack map --alternate --marks"), said("a grid is typed without --csv")),
        (said("unpack map --csv --marks"), said("--csv has marks by itself, so --marks is too much")),
        (
            format!("{point} --column 1 --row 1 --alternate --lookahead 4"),
            said("no cut-out that the desk packed alternates: --alternate is wrong"),
        ),
        (said("split map"), said("--to is missing")),
        (said("levels"), said("the map is missing")),
        (said("levels map map"), said("map is one word too many")),
        (said("levels map --to cut"), said("--to is said without --write")),
        (said("levels --to cut"), said("--to is said without --write")),
        (said("levels --write"), said("--write needs a value")),
        (said("levels --write text"), said("--to is missing")),
        (said("levels --write text --to ."), said("--to . names no file")),
        (said("levels map --write text --to cut"), said("map is one word too many")),
        (said("levels map --lookahead 4"), no_option("levels", "--lookahead")),
        (said(pack), said("--to is missing")),
        (said("pack --columns 4 --rows 1 --to cut"), said("the map is missing")),
        (format!("{pack} --to"), said("--to needs a value")),
        (format!("{pack} --to --lookahead 4"), said("--to needs a value")),
        (format!("{pack} --columns 5 --to cut"), said("--columns is said twice")),
        (format!("{pack} --columns=4 --to cut"), said("--columns is said twice")),
        (format!("{pack} --alternate --alternate --to cut"), said("--alternate is said twice")),
        (said("pack map --columns four --rows 1 --to cut"), no_number("--columns four")),
        (said("pack map --columns= --rows 1 --to cut"), no_number("--columns ")),
        (said("pack map --columns=1=2 --rows 1 --to cut"), no_number("--columns 1=2")),
        (said("pack map --columns -4 --rows 1 --to cut"), no_number("--columns -4")),
        (said("pack map --columns 4294967296 --rows 1 --to cut"), no_number("--columns 4294967296")),
        (said("pack map --columns 4.0 --rows 1 --to cut"), no_number("--columns 4.0")),
        (said("pack map --columns 0 --rows 1 --to cut"), said("--columns is 0, and a map has at least 1")),
        (said("pack map --columns 4 --rows 0 --to cut"), said("--rows is 0, and a map has at least 1")),
        (format!("{pack} --lookahead -1 --to cut"), no_number("--lookahead -1")),
        (format!("{pack} --cut-columns 2 --to cut"), no_span("--cut-columns 2")),
        (format!("{pack} --cut-columns 1- --to cut"), no_span("--cut-columns 1-")),
        (format!("{pack} --cut-rows 1-x --to cut"), no_span("--cut-rows 1-x")),
        (format!("{pack} --cut-rows 1-2-3 --to cut"), no_span("--cut-rows 1-2-3")),
        (format!("{pack} --cut-rows 1-4294967296 --to cut"), no_span("--cut-rows 1-4294967296")),
        (format!("{pack} --cut-columns 3-2 --to cut"), said("--cut-columns 3-2 ends before it begins")),
        (format!("{pack} --cut-rows 0-3 --to cut"), said("--cut-rows 0-3 begins with 0, and they are counted from 1")),
        (format!("{point} --column 1"), said("--row is missing")),
        (format!("{point} --column 0 --row 1"), said("--column is 0, and rows and columns are counted from 1")),
        (format!("{point} --column 1 --row 0"), said("--row is 0, and rows and columns are counted from 1")),
    ] {
        let command = line.split(' ').next().unwrap();
        let sentence = format!("{what}; desk help {command} says how the desk is asked");
        assert_eq!(told(&folder, &words(&line), HOST), sentence, "{line}");
    }

    for (line, sentence) in [
        (said("pack map --columns 4 --to cut"), said("--rows is missing: map does not say its grid")),
        (said("pack map --rows 4 --to cut"), said("--columns is missing: map does not say its grid")),
        (
            format!("{pack} --cut-columns 1-5 --to cut"),
            said("a map of 4 columns x 1 row, not alternate, does not have columns 1 to 5"),
        ),
        (
            format!("{pack} --cut-rows 2-2 --to cut"),
            said("a map of 4 columns x 1 row, not alternate, does not have row 2"),
        ),
        (
            format!("{pack} --alternate --cut-rows 1-4294967295 --to cut"),
            said("a map of 4 columns x 1 row, alternate, does not have rows 1 to 4294967295"),
        ),
        (
            format!("{point} --column 5 --row 1"),
            said("a map of 4 columns x 1 row, not alternate, does not have column 5"),
        ),
        (
            format!("{point} --column 1 --row 4294967295"),
            said("a map of 4 columns x 1 row, not alternate, does not have row 4294967295"),
        ),
    ] {
        assert_eq!(told(&folder, &words(&line), HOST), sentence, "{line}");
    }
    assert_eq!(names_in(&folder), ["map.s5", "map.s7"]);
}

/// Options in any place and either form, and names behind `--`.
#[test]
fn words_in_other_forms() {
    let folder = scratch("forms");
    write_case(&folder);
    write_map(&folder, "-map", &complex(4, CASE), &section7(&CASE_PAYLOAD));
    let printed = results(&folder, &words("point map --columns 2 --rows 2 --column 1 --row 2"));
    for line in [
        "point --columns=2 --rows=2 --column=1 --row=2 map",
        "point --columns=2 --rows 2 map --row=2 --column 1",
        "point --row 2 --columns 2 --rows 2 --column 1 -- map",
        "point --row 2 --columns 2 --rows 2 --column 1 ./map",
    ] {
        assert_eq!(results(&folder, &words(line)).replace("./map", "map"), printed, "{line}");
    }
    assert_eq!(results(&folder, &words("unpack -- -map")), "5\n6\n5\n7\n");
    assert_eq!(results(&folder, &words("unpack ./-map.s5")), "5\n6\n5\n7\n");
    assert_eq!(
        told(&folder, &words("unpack -- --marks"), HOST),
        "there is no map --marks: there is neither a file of this name nor --marks.s5"
    );
}

const COMMANDS: [&str; 9] = ["list", "info", "unpack", "point", "check", "pack", "levels", "split", "day"];

#[test]
fn help_says_everything() {
    let help = results(&top(), &["--help"]);
    for line in ["-h", "help", "help help", "dusk --help", "-h unpack"] {
        assert_eq!(results(&top(), &words(line)), help, "{line}");
    }
    let joined = help.split_whitespace().collect::<Vec<_>>().join(" ");
    for command in COMMANDS {
        let own = results(&top(), &["help", command]);
        for line in [format!("{command} --help"), format!("{command} map -h")] {
            assert_eq!(results(&top(), &words(&line)), own, "{line}");
        }
        // Its own part, its own example, and every status.
        assert!(own.starts_with(&format!("  desk {command} ")), "{own}");
        assert!(own.contains(&format!("Examples:\n  desk {command} ")), "{own}");
        assert_eq!(own.matches("\n  desk ").count(), 1, "{own}");
        assert!(own.lines().count() < help.lines().count());
        assert!(own.lines().all(|line| help.lines().any(|other| other == line)), "{own}");
    }
    for line in help.lines() {
        assert!(line.len() <= 80 && line.is_ascii() && line.trim_end() == line, "{line:?}");
    }
    for refusal in Refusal::ALL {
        let status = format!(" {} {}", refusal.number(), refusal.sentence());
        assert!(joined.contains(&status), "{status}");
    }
    for status in [0, HOST, NO_FORECAST, NO_NUMBER, OTHER_PACKING] {
        assert_eq!(help.lines().filter(|line| line.starts_with(&format!("{status:>4}  "))).count(), 1, "{status}");
    }
    for said in ["--columns N --rows N [--alternate]", "NAME.s5", "FILE:N", "'no forecast'", "desk pack takes 4 if"] {
        assert!(joined.contains(said), "{said}");
    }
}

/// The examples of the help, in a folder where their files are.
#[test]
fn examples_of_the_help() {
    let folder = scratch("examples");
    copy(&GUST.file("grib2"), &folder.join("gust.grib2"));
    fs::create_dir(folder.join("samples")).unwrap();
    for sample in [GUST, PUERTO_RICO, CONUS] {
        copy(&sample.file("grib2"), &folder.join(format!("samples/{}.grib2", sample.name)));
    }
    let example = |command: &str| {
        let help = results(&folder, &["help", command]);
        let (_, example) = help.split_once("Examples:\n  desk ").unwrap();
        example.lines().next().unwrap().to_string()
    };
    // A cut-out is packed before it is read.
    let rain = "# levels, not gusts: bits 4, greatest level 9, points 3\n3\n3\n5\n";
    fs::write(folder.join("rain.txt"), rain).unwrap();
    for command in ["list", "info", "unpack", "pack", "check", "point", "levels", "split", "day"] {
        assert!(!results(&folder, &words(&example(command))).is_empty(), "{command}");
    }
}

#[test]
fn the_version() {
    for word in ["--version", "-V"] {
        assert_eq!(results(&top(), &[word]), concat!("desk ", env!("CARGO_PKG_VERSION"), "\n"));
    }
}
