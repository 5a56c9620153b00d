//! `plus frame`.

use crate::picture::Picture;
use crate::tools::{plus, repository, Folder, Scene};
use plus::UNLOCK;
use std::ffi::OsStr;
use std::fs;
use std::path::Path;

fn frame(scene: impl AsRef<OsStr>, picture: impl AsRef<OsStr>) -> crate::tools::Ran {
    plus(["frame".as_ref(), scene.as_ref(), picture.as_ref()])
}

/// The colours as `examples/make` has them, 4 bits a part and 17 times that here.
#[test]
fn the_sprites_scene() {
    let folder = Folder::new();
    let out = folder.place("sprites.png");
    frame(repository("examples/sprites.scene"), &out).prints("640 x 312\n");
    let picture = Picture::read(&out);
    assert_eq!((picture.width, picture.height), (640, 312));
    // Four bars of 160 positions, in pens 0 to 3.
    let bars = [[0, 0, 51], [255, 204, 0], [0, 170, 68], [204, 34, 102]];
    for (n, colour) in bars.into_iter().enumerate() {
        assert_eq!(picture.pixel(160 * n, 0), colour);
        assert_eq!(picture.pixel(160 * n + 159, 0), colour);
    }
    // The border from line 200 on.
    assert_eq!(picture.pixel(0, 200), [34, 34, 34]);
    assert_eq!(picture.pixel(639, 311), [34, 34, 34]);
    // The middle of sprite 0, at X 60 and Y 20, in its second colour.
    assert_eq!(picture.pixel(68, 28), [0, 68, 255]);
    // Sprite 3, half out on the left: its middle is 32 right of -20 and below 130.
    assert_eq!(picture.pixel(12, 162), [153, 68, 255]);
}

#[test]
fn the_split_scene() {
    let folder = Folder::new();
    let out = folder.place("split.png");
    frame(repository("examples/split.scene"), &out).prints("640 x 312\n");
    let picture = Picture::read(&out);
    // The extended border is black. Pen 0 has the colour 0, 15, 0.
    assert_eq!(picture.pixel(15, 0), [0, 0, 0]);
    assert_eq!(picture.pixel(16, 0), [0, 255, 0]);
}

/// RC past R9 wraps to 0 with VC at 0, which is no frame's first line: the frame
/// begins where the screen address comes from R12 and R13.
#[test]
fn a_frame_begins_at_a_frames_first_line() {
    let mut scene = Scene::new();
    // Pen 1 where 3000h leads on both lines of a row, and nowhere else.
    scene.ram[0xC000..0xC002].fill(0xFF);
    scene.ram[0xC800..0xC802].fill(0xFF);
    let scene = scene
        .each('B', &UNLOCK)
        .each('G', &[0xB8, 0x82])
        .record('W', 0x6402, 0xFF)
        .record('W', 0x6403, 0x0F)
        .registers(&[(4, 1), (6, 1), (9, 7), (12, 0x30), (1, 1)])
        .each('L', &[0; 5])
        .registers(&[(9, 1)]);
    let folder = Folder::new();
    let (file, out) = (
        folder.file("late.scene", &scene.bytes()),
        folder.place("late.png"),
    );
    // Two rows of two lines, of which R6 shows one.
    frame(&file, &out).prints("640 x 4\n");
    let picture = Picture::read(&out);
    let left: Vec<[u8; 3]> = (0..4).map(|y| picture.pixel(0, y)).collect();
    assert_eq!(left, [[255; 3], [255; 3], [0; 3], [0; 3]]);
}

/// Lines that mode 3 refuses move nothing: the frame begins where it would.
#[test]
fn refused_lines_are_no_lines() {
    let folder = Folder::new();
    let pictures = [0, 7].map(|refused| {
        let mut scene = Scene::new();
        scene.ram[..0x4000].fill(0xA5);
        let scene = scene
            .registers(&[(1, 40), (4, 3), (6, 2), (9, 7)])
            .each('L', &[0, 0, 0])
            .refused_lines(refused)
            .record('G', 0, 0x81);
        let file = folder.file("refused.scene", &scene.bytes());
        let out = folder.place("refused.png");
        frame(&file, &out).prints("640 x 32\n");
        fs::read(&out).unwrap()
    });
    assert!(pictures[0] == pictures[1]);
}

#[test]
fn mode_3_is_refused_and_no_file_touched() {
    let folder = Folder::new();
    let file = folder.file("three.scene", &Scene::new().record('G', 0, 0x83).bytes());
    let said = format!("refused 4: {file} leads to screen mode 3\n");
    let out = folder.place("new.png");
    frame(&file, &out).fails(1, &said);
    assert!(!Path::new(&out).exists());
    let out = folder.file("old.png", b"a picture");
    frame(&file, &out).fails(1, &said);
    assert_eq!(fs::read(&out).unwrap(), b"a picture");
}

#[test]
fn a_scene_that_ends_early_draws_nothing() {
    let folder = Folder::new();
    let mut bytes = Scene::new().each('L', &[0, 0]).bytes();
    bytes.pop();
    let file = folder.file("cut.scene", &bytes);
    let out = folder.file("old.png", b"a picture");
    let said = format!("{file}: the scene ends early, at byte 69639, in record number 2\n");
    frame(&file, &out).fails(1, &said);
    assert_eq!(fs::read(&out).unwrap(), b"a picture");
}

#[test]
fn files_that_cant_be_read_or_written_are_named() {
    let folder = Folder::new();
    let missing = folder.place("missing.scene");
    let out = folder.place("missing/out.png");
    let said = format!("{missing}: No such file or directory (os error 2)\n");
    frame(&missing, &out).fails(1, &said);
    let file = folder.file("plain.scene", &Scene::new().bytes());
    let said = format!("{out}: No such file or directory (os error 2)\n");
    frame(&file, &out).fails(1, &said);
}
