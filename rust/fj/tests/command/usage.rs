//! Help, version, options, and commands that are none.

use crate::{came, came_of, command, fj, GALLERY};
use std::os::fd::OwnedFd;
use std::os::unix::net::UnixStream;

#[test]
fn help_is_given_wherever_it_is_asked_for() {
    let asked = [
        ("usage: fj judge FILE", "sheet --help"),
        ("usage: fj judge FILE", "sheet draw --help"),
        ("usage: fj judge FILE", "judge --plain --help"),
        ("usage: fj judge FILE", "judge two.sheet -h"),
        ("usage: fj judge FILE", "help judge"),
        ("fj: rehearse the commit", "-h"),
        ("fj: rehearse the commit", "help"),
        ("fj: rehearse the commit", "help chart"),
        ("fj: rehearse the commit", "rehearse -h"),
        ("fj: rehearse the commit", "chart mine.journal --help"),
        ("fj: rehearse the commit", "show --nonsense -h"),
    ];
    for (start, arguments) in asked {
        let (status, printed, wrong) = fj(&arguments.split(' ').collect::<Vec<_>>(), b"");
        assert_eq!((status, &*wrong), (Some(0), ""), "{arguments}");
        assert!(printed.starts_with(start), "{arguments}: {printed}");
    }
}

#[test]
fn the_help_names_every_command_and_option() {
    let (_, help, _) = fj(&["--help"], b"");
    for word in ["rehearse", "day", "next", "chart", "assemble", "show", "judge", "sheet"] {
        assert!(help.contains(&format!(" fj {word} ")), "{word}");
    }
    for word in ["--plain", "--strict", "--bytes", "--version", " -- ", "65,536", "7,281"] {
        assert!(help.contains(word), "{word}");
    }
    let (_, help, _) = fj(&["sheet", "--help"], b"");
    for word in ["judge", "judge --plain", "judge --strict"] {
        assert!(help.contains(&format!(" fj {word} FILE ")), "{word}");
    }
    for word in ["assemble", "show", "draw"] {
        assert!(help.contains(&format!(" fj sheet {word} FILE ")), "{word}");
    }
}

#[test]
fn the_version_is_its_own_and_the_library_s() {
    let version = format!("fj {}, library {}\n", env!("CARGO_PKG_VERSION"), fjadrimor::VERSION);
    assert_eq!(fj(&["--version"], b""), came(0, &version, ""));
    assert_eq!(fj(&["-V"], b""), came(0, &version, ""));
}

#[test]
fn what_is_no_command_is_named() {
    let wrong = [
        ("rehears -", "there is no command rehears; fj --help tells how to use it"),
        ("--plain", "--plain comes with a command; fj --help tells how to use it"),
        ("rehearse", "rehearse takes one file; fj --help tells how to use it"),
        ("chart a b", "chart takes one file; fj --help tells how to use it"),
        ("day --strict -", "day has no option --strict; fj --help tells how to use it"),
        ("next --plain -", "next has no option --plain; fj --help tells how to use it"),
        ("rehearse -p -", "rehearse has no option -p; fj --help tells how to use it"),
        ("judge", "judge takes one file; fj sheet --help tells how to use it"),
        ("judge --bytes -", "judge has no option --bytes; fj sheet --help tells how to use it"),
        ("sheet", "sheet takes a command: assemble, show or draw; fj sheet --help tells how to use it"),
        ("sheet judge -", "sheet has no command judge: assemble, show or draw; fj sheet --help tells how to use it"),
        ("sheet draw", "sheet draw takes one file; fj sheet --help tells how to use it"),
        ("sheet draw --strict -", "sheet draw has no option --strict; fj sheet --help tells how to use it"),
    ];
    for (arguments, why) in wrong {
        let words: Vec<&str> = arguments.split(' ').collect();
        assert_eq!(fj(&words, b""), came(2, "", &format!("fj: {why}\n")), "{arguments}");
    }
    let none = came(2, "", "fj: no command is given; fj --help tells how to use it\n");
    assert_eq!(fj(&[], b""), none);
}

#[test]
fn options_stand_anywhere_until_they_are_ended() {
    let told = came(0, "sites 2\nend 0 0\n", "");
    let lines = ["rehearse --plain -", "rehearse - --plain", "--plain rehearse -"];
    for arguments in lines.into_iter().chain(["rehearse --plain -- -", "--plain -- rehearse -"]) {
        assert_eq!(fj(&arguments.split(' ').collect::<Vec<_>>(), b"sites 2"), told, "{arguments}");
    }
    let (status, printed, wrong) = fj(&["rehearse", "--", "--help"], b"");
    assert_eq!((status, &*printed), (Some(1), ""));
    assert!(wrong.starts_with("fj: --help: No such file"), "{wrong}");
}

#[test]
fn a_file_may_begin_with_a_dash_or_have_any_name() {
    use std::os::unix::ffi::OsStrExt;
    let folder = std::env::temp_dir().join(format!("fj-names-{}", std::process::id()));
    std::fs::create_dir_all(&folder).expect("a folder");
    for name in [&b"--plain"[..], b"M\xfcnchen"] {
        let name = std::ffi::OsStr::from_bytes(name);
        std::fs::write(folder.join(name), "sites 2").expect("a file");
        let output = command(&["show", "--"]).arg(name).current_dir(&folder).output();
        assert_eq!(came_of(output.expect("it runs")), came(0, "sites 2\n", ""), "{name:?}");
    }
    std::fs::remove_dir_all(&folder).expect("it was there");
}

#[test]
fn a_reader_may_have_seen_enough() {
    let sheet = format!("{GALLERY}/central-two-phase-2.sheet");
    for arguments in [&["--help"][..], &["sheet", "--help"], &["judge", &sheet]] {
        // An output whose other end is closed.
        let (output, _) = UnixStream::pair().expect("a pair");
        let came = command(arguments).stdout(OwnedFd::from(output)).output().expect("it runs");
        assert_eq!((came.status.code(), &*came.stderr), (Some(0), &b""[..]), "{arguments:?}");
    }
}

#[test]
fn an_error_that_nobody_can_read_is_still_an_exit_status() {
    let (errors, _) = UnixStream::pair().expect("a pair");
    let came = command(&["nonsense"]).stderr(OwnedFd::from(errors)).output().expect("it runs");
    assert_eq!(came.status.code(), Some(2));
}
