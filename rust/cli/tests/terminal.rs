//! The command at a terminal, which `script` stands in for: what is shown there and not elsewhere.
mod common;
use common::{Folder, Said};
use zolvortug::Tick;
use zolvortug_cli::layout::clock;
use zolvortug_cli::time;

/// Runs a command line with a terminal for all three streams; what was shown there. None where there is no `script`.
fn at_terminal(f: &Folder, line: &str) -> Option<Said> {
    if f.shell("script --version").status != Some(0) {
        eprintln!("script is not here: what a terminal shows was not looked at");
        return None;
    }
    let said = f.shell(&format!("TERM=xterm script -qec \"{line}\" /dev/null < /dev/null"));
    Some(said)
}

#[test]
fn colours() {
    let f = Folder::new();
    let Some(said) = at_terminal(&f, "zolvortug demo") else {
        return;
    };
    let said = said.ends(0);
    assert!(
        said.out.contains("\x1b[32mnothing\x1b[0m") && said.out.contains("\x1b[31mC\x1b[0m"),
        "{said:?}"
    );
    let plain: String = said.out.replace('\r', "");
    let plain = ["\x1b[0m", "\x1b[1m", "\x1b[2m", "\x1b[31m", "\x1b[32m"]
        .iter()
        .fold(plain, |t, code| t.replace(code, ""));
    assert_eq!(plain, include_str!("demo.out"));
    for line in ["NO_COLOR=1 zolvortug demo", "TERM=dumb zolvortug demo"] {
        let said = at_terminal(&f, line).unwrap().ends(0);
        assert_eq!(said.out.replace('\r', ""), include_str!("demo.out"));
    }
}

/// The picture of a series: phases in one colour, gaps in another.
#[test]
fn colours_of_a_series() {
    let f = Folder::new();
    f.run("demo i").ends(0);
    let series = "zolvortug series i --client 2 --series 2 --summary";
    let Some(said) = at_terminal(&f, &format!("COLUMNS=16 {series}")) else {
        return;
    };
    let line = "[\x1b[31m..\x1b[0m\x1b[32m==========\x1b[0m]\r\n";
    assert!(said.ends(0).out.contains(line));
    let said = at_terminal(&f, &format!("COLUMNS=11 {series}")).unwrap().ends(0);
    let line = "[\x1b[31m.\x1b[0m\x1b[1m-\x1b[0m\x1b[32m=====\x1b[0m]\r\n";
    assert!(said.out.contains(line), "{said:?}");
    let said = at_terminal(&f, &format!("unset COLUMNS; stty cols 16; {series}")).unwrap();
    let line = "[\x1b[31m..\x1b[0m\x1b[32m==========\x1b[0m]\r\n";
    assert!(said.ends(0).out.contains(line), "as wide as the terminal");
}

#[test]
fn bytes_are_not_sent_to_a_terminal() {
    let f = Folder::new();
    f.run("format i --blocks 8").ends(0);
    let id = f
        .fed("create i --client 3 --expires never --pad", b"abc")
        .ends(0)
        .line();
    let Some(said) = at_terminal(&f, &format!("zolvortug read i {id}")) else {
        return;
    };
    let lines: Vec<String> = said.ends(0).out.lines().map(|l| l.trim_end().to_string()).collect();
    assert_eq!(
        (lines.len(), &lines[0][..]),
        (33, "  0  61626300000000000000000000000000")
    );
    assert_eq!(lines[32], "512  00000000000000000000000000000000");
    for line in ["zolvortug format - --blocks 8", "zolvortug scavenge - < i"] {
        let said = at_terminal(&f, line).unwrap().ends(2);
        assert!(said.out.contains("send it to a file or a pipe"), "{said:?}");
    }
    let said = at_terminal(&f, "zolvortug create i --client 3 --expires never")
        .unwrap()
        .ends(2);
    assert!(said.out.contains("the data is missing"), "{said:?}");
}

/// A walk that takes long, because its writes are slow, tells how far it is; and its calls are made at the times they
/// are made at.
#[test]
fn a_slow_walk() {
    let f = Folder::new();
    f.run("format i --blocks 4096").ends(0);
    if f.shell("strace -V").status != Some(0) {
        eprintln!("strace is not here: no walk could be made slow");
        return;
    }
    let slow = "strace -o /dev/null -e trace=fdatasync -e inject=fdatasync:delay_exit=10000 zolvortug scavenge i";
    let Some(said) = at_terminal(&f, slow) else { return };
    let said = said.ends(0);
    assert!(
        said.out.contains(" of 4096, ") && said.out.contains("\r\x1b[K"),
        "{said:?}"
    );
    let begin = time::system();
    let quiet = f.shell(slow).ends(0).says("removed 0\n");
    assert_eq!(quiet.err, "");
    let clock = Tick(clock(&f.bytes("i")));
    assert!(
        clock <= time::system() && clock.0 >= begin.0 + 600,
        "{begin:?} {clock:?}"
    );
}
