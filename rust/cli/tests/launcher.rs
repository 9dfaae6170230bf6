//! The script `zolvortug` at the root, with stand-ins for rt and cargo: it builds what is old, and never runs what
//! could not be built.
mod common;
use common::Folder;
use std::fs;
use std::os::unix::fs::PermissionsExt;

const RT: &str = "#!/bin/bash
echo rt >> \"$CALLS\"; echo \"rt: plain proved (1 s)\"; echo noise
[[ -z ${RT_FAILS-} ]] || exit 1
mkdir -p out && echo library > out/libzolvortug.a\n";
const CARGO: &str = "#!/bin/bash
echo cargo >> \"$CALLS\"; echo noise
[[ -z ${CARGO_FAILS-} ]] || exit 1
made=target/rust/release/zolvortug; mkdir -p target/rust/release
printf '#!/bin/bash\\necho \"in $(basename \"$PWD\"): $*\"; exit 7\\n' > $made; chmod +x $made\n";

fn script(f: &Folder, name: &str, text: &str) {
    fs::write(f.path(name), text).unwrap();
    fs::set_permissions(f.path(name), fs::Permissions::from_mode(0o755)).unwrap();
}

#[test]
fn builds_what_is_old() {
    let f = Folder::new();
    for folder in ["tree/crates/zolvortug", "tree/rust", "tree/tools", "bin", "here"] {
        fs::create_dir_all(f.path(folder)).unwrap();
    }
    fs::write(f.path("tree/crates.txt"), "").unwrap();
    script(&f, "tree/zolvortug", include_str!("../../../zolvortug"));
    script(
        &f,
        "tree/tools/make-library",
        include_str!("../../../tools/make-library"),
    );
    script(&f, "bin/rt", RT);
    script(&f, "bin/cargo", CARGO);
    let run = |setting: &str| {
        let script =
            format!("export CALLS=$PWD/calls PATH=$PWD/bin:$PATH; cd here; {setting} ../tree/zolvortug ids 'a b'");
        let said = f.shell(&script);
        let calls = fs::read_to_string(f.path("calls"))
            .unwrap_or_default()
            .replace('\n', " ");
        let _ = fs::remove_file(f.path("calls"));
        (said, calls)
    };
    let later = |path: &str| {
        f.shell(&format!("sleep 0.02; echo new > {path}; sleep 0.02")).ends(0);
    };

    let (said, calls) = run("RT_FAILS=1");
    assert_eq!(calls, "rt ");
    said.ends(3).says("").warns("noise");
    let (said, calls) = run("CARGO_FAILS=1");
    assert_eq!(calls, "rt cargo ");
    said.ends(3).says("").warns("noise");
    let (said, calls) = run("");
    assert_eq!(calls, "cargo ");
    said.ends(7).says("in here: ids a b\n");
    let (said, calls) = run("");
    assert_eq!((&calls[..], &said.err[..]), ("", ""));
    said.ends(7).says("in here: ids a b\n");

    later("tree/rust/main.rs");
    let (said, calls) = run("CARGO_FAILS=1");
    assert_eq!(calls, "cargo ");
    said.ends(3).says("");
    assert_eq!(run("").1, "cargo ");
    later("tree/crates/lib.rt");
    let (said, calls) = run("RT_FAILS=1");
    assert_eq!(calls, "rt ");
    said.ends(3).says("").warns("plain proved");
    assert_eq!(run("").1, "rt cargo ");
    assert_eq!(run("").1, "");
    fs::remove_file(f.path("bin/rt")).unwrap();
    later("tree/crates/lib.rt");
    run("PATH=${PATH//\\/usr\\/local\\/bin:/}")
        .0
        .ends(3)
        .says("")
        .warns("rt is needed");
}
