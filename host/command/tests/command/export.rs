//! `plus export`.

use crate::tools::{exported, hexadecimal, plus, repository, Folder, Scene};
use plus::UNLOCK;
use std::fs;
use std::path::Path;

/// A scene whose writes are PRI, X high with all bits set, a prescale and another
/// one, of which the last is undone.
fn scene() -> Scene {
    Scene::new()
        .each('B', &UNLOCK)
        .record('G', 0, 0xB8)
        .record('W', 0x6800, 0x64)
        .record('W', 0x6019, 0xFF)
        .record('W', 0x6C06, 3)
        .record('W', 0x6C06, 9)
        .record('U', 0, 0)
}

#[test]
fn what_the_registers_hold() {
    let folder = Folder::new();
    let file = folder.file("undone.scene", &scene().bytes());
    let out = folder.place("undone.export");
    plus(["export", &file, &out]).prints("159 registers\n");
    let held = [(0x6019, 3), (0x6800, 0x64), (0x6805, 1), (0x6C06, 3)];
    assert_eq!(fs::read(&out).unwrap(), exported(&held));
}

/// What an assembler takes: a line for each three bytes.
#[test]
fn for_an_assembler() {
    let folder = Folder::new();
    let file = folder.file("undone.scene", &scene().bytes());
    let out = folder.file("undone.asm", &[0xEE; 10_000]);
    plus(["export", &file, &out, "--asm"]).prints("159 registers\n");
    let text = fs::read_to_string(&out).unwrap();
    let held = [(0x6019, 3), (0x6800, 0x64), (0x6805, 1), (0x6C06, 3)];
    let line = |three: &[u8]| {
        format!(
            "defb #{:02X} ; {:02X}{:02X}\n",
            three[2], three[1], three[0]
        )
    };
    let expected: String = exported(&held).chunks(3).map(line).collect();
    assert_eq!(text, expected);
    assert!(text.starts_with("defb #00 ; 6000\n"));
    assert!(text.contains("defb #64 ; 6800\n"));
}

/// A file that is there is written over.
#[test]
fn the_same_as_the_runs_letter() {
    let folder = Folder::new();
    let file = folder.file("lettered.scene", &scene().record('E', 0, 0).bytes());
    let out = folder.file("lettered.export", &[0xEE; 1000]);
    plus(["export", &file, &out]).prints("159 registers\n");
    let ran = plus(["run", &file]);
    let line = format!("0 {}", hexadecimal(&fs::read(&out).unwrap()));
    assert_eq!(ran.out.lines().last(), Some(&*line));
}

/// The scene of the example changes what the sprites' has set, and undoes it all.
#[test]
fn the_examples() {
    let folder = Folder::new();
    let [sprites, undone] = ["sprites", "undo"].map(|name| {
        let scene = repository(&format!("examples/{name}.scene"));
        let out = folder.place(name);
        let words = ["export".as_ref(), scene.as_os_str(), out.as_ref()];
        plus(words).prints("159 registers\n");
        fs::read(&out).unwrap()
    });
    assert_eq!(sprites, undone);
}

#[test]
fn a_scene_that_ends_early_exports_nothing() {
    let folder = Folder::new();
    let mut bytes = scene().bytes();
    bytes.pop();
    let file = folder.file("cut.scene", &bytes);
    let out = folder.place("cut.export");
    let said = format!("{file}: the scene ends early, at byte 69723, in record number 23\n");
    plus(["export", &file, &out]).fails(1, &said);
    assert!(!Path::new(&out).exists());
}

#[test]
fn files_that_cant_be_read_or_written_are_named() {
    let folder = Folder::new();
    let missing = folder.place("missing.scene");
    let out = folder.place("missing/out");
    let said = format!("{missing}: No such file or directory (os error 2)\n");
    plus(["export", &missing, &out]).fails(1, &said);
    let file = folder.file("plain.scene", &scene().bytes());
    let said = format!("{out}: No such file or directory (os error 2)\n");
    plus(["export", &file, &out]).fails(1, &said);
}
