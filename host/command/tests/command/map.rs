//! `plus map`.

use crate::picture::Picture;
use crate::tools::{plus, repository, Folder, Ran, Scene};
use std::ffi::OsStr;
use std::fs;
use std::path::Path;

fn map(scene: impl AsRef<OsStr>, picture: impl AsRef<OsStr>) -> Ran {
    plus(["map".as_ref(), scene.as_ref(), picture.as_ref()])
}

/// The picture of a scene's text, which prints this.
fn drawn(text: &str, prints: &str) -> Picture {
    let folder = Folder::new();
    let file = folder.file("a.txt", text.as_bytes());
    let out = folder.place("a.png");
    map(&file, &out).prints(prints);
    Picture::read(&out)
}

type Colour = [u8; 3];

const PAPER: Colour = [255; 3];
const FREE: Colour = [0xDD; 3];
const INK: Colour = [0x22; 3];

/// What stands in a line of pixels: its colours from left to right, with how many pixels
/// each takes. The line at a list's start is taken for a part of it.
fn stretches(picture: &Picture, y: usize) -> Vec<(Colour, usize)> {
    let mut found: Vec<(Colour, usize)> = vec![];
    // Right of the addresses.
    let left = picture.width - 768 - 12;
    let mut pixels = (left..picture.width)
        .map(|x| picture.pixel(x, y))
        .peekable();
    while let Some(mut colour) = pixels.next() {
        let starts = colour == INK;
        if starts {
            colour = *pixels.peek().unwrap();
        }
        match found.last_mut() {
            Some((last, width)) if *last == colour && !starts => *width += 1,
            _ => found.push((colour, 1)),
        }
    }
    found
}

/// The colours, and widths in bytes of which a row has so many.
fn bytes(picture: &Picture, y: usize, row: usize) -> Vec<(Colour, usize)> {
    let paper = |found: &(Colour, usize)| *found != (PAPER, 12);
    let found = stretches(picture, y).into_iter().filter(paper);
    let in_bytes = |(colour, width): (Colour, usize)| {
        assert_eq!(width * row % 768, 0, "{width} pixels");
        (colour, width * row / 768)
    };
    found.map(in_bytes).collect()
}

/// By hand: three lists of which the second goes, and a fourth.
const FOUR: &str = "area 8004 8040\nplace 0 6\nplace 0 8\nplace 0 30\nremove 1\nplace 0 4\n";

#[test]
fn what_is_printed() {
    drawn(FOUR, "area 08004 08040\n0 8004 6\n1 800A 4\n2 8012 30\n");
    drawn("area 0 10000\n", "area 00000 10000\n");
    drawn(
        "area FFFE 10000\nplace 0 2\n",
        "area 0FFFE 10000\n0 FFFE 2\n",
    );
    // Handles rise, whatever the addresses do.
    drawn(
        "area 0 ABC\nplace 0 2\nplace 0 2\nremove 0\nplace 0 300\n",
        "area 00000 00ABC\n0 0004 300\n1 0002 2\n",
    );
}

/// Rows of 32 bytes: four before the area, the lists with a gap of 4 bytes, and what
/// follows.
#[test]
fn it_is_drawn_to_scale() {
    let picture = drawn(FOUR, "area 08004 08040\n0 8004 6\n1 800A 4\n2 8012 30\n");
    let (first, second) = (bytes(&picture, 20, 32), bytes(&picture, 44, 32));
    let [paper, zero, one, free, two] = first[..] else {
        panic!("{first:02X?}")
    };
    assert_eq!((paper, free), ((PAPER, 4), (FREE, 4)));
    assert_eq!((zero.1, one.1, two.1), (6, 4, 14));
    // The third goes on for 16 bytes, and 16 are free up to the higher bound.
    assert_eq!(second, [(two.0, 16), (FREE, 16)]);
    // Below the rows stand the handles, each with its colour.
    let below = stretches(&picture, picture.height - 25);
    let colours: Vec<Colour> = below.iter().map(|(colour, _)| *colour).collect();
    for (colour, _) in [zero, one, two] {
        assert!(colours.contains(&colour), "{below:02X?}");
    }
    assert!(!colours.contains(&FREE));
}

/// A longer area has longer rows: 64, 128, 256 and then 512 bytes.
#[test]
fn longer_areas_have_longer_rows() {
    for (upto, row, y) in [
        (1024, 32, 20),
        (1026, 64, 20),
        (2048, 64, 20),
        (4096, 128, 20),
        (8192, 256, 18),
        (8194, 512, 14),
        (0x1_0000, 512, 14),
    ] {
        let text = format!("area 0 {upto:X}\nplace 0 6\nplace 0 10\n");
        let prints = format!("area 00000 {upto:05X}\n0 0000 6\n1 0006 10\n");
        let found = bytes(&drawn(&text, &prints), y, row);
        let widths: Vec<usize> = found.iter().map(|(_, width)| *width).collect();
        assert_eq!(widths, [6, 10, row - 16], "{upto}");
        assert_eq!(found[2].0, FREE);
    }
}

/// How far apart two colours look, by a simple rule.
fn distance(one: Colour, two: Colour) -> f64 {
    let [red, green, blue] = [0, 1, 2].map(|n| f64::from(one[n]) - f64::from(two[n]));
    let mean = (f64::from(one[0]) + f64::from(two[0])) / 512.0;
    ((2.0 + mean) * red * red + 4.0 * green * green + (3.0 - mean) * blue * blue).sqrt()
}

/// 64 lists of a whole row each, of which no two look alike, nor like what is free. Black
/// and white are 765 apart.
#[test]
fn each_handle_has_its_colour() {
    let folder = Folder::new();
    let text = "area 0 10000\n".to_string() + &"place 0 512\n".repeat(64);
    let (file, out) = (
        folder.file("all.txt", text.as_bytes()),
        folder.place("all.png"),
    );
    let ran = map(&file, &out);
    let lines: Vec<String> = (0..64)
        .map(|n| format!("{n} {:04X} 512\n", 512 * n))
        .collect();
    ran.prints(&("area 00000 10000\n".to_string() + &lines.concat()));
    let picture = Picture::read(&out);
    let mut seen = vec![PAPER, FREE, INK];
    for n in 0..64 {
        let [(colour, 512)] = bytes(&picture, 12 + 6 * n + 2, 512)[..] else {
            panic!("list {n}")
        };
        for other in &seen {
            assert!(
                distance(colour, *other) >= 60.0,
                "{n}: {colour:02X?} {other:02X?}"
            );
        }
        seen.push(colour);
    }
}

#[test]
fn without_an_area_nothing_is_written() {
    let folder = Folder::new();
    let (new, old) = (
        folder.place("new.png"),
        folder.file("old.png", b"a picture"),
    );
    for text in [
        "",
        "unlock\nmap\nlines 3\n",
        "place 0 2\nremove 0\n",
        "area 1 2\narea 0 0\narea 0 10002\n",
        "area 8000 9000\nplace 0 2\nreset\n",
    ] {
        // A file of no bytes would be no text.
        let file = folder.file("none.txt", format!("# none\n{text}").as_bytes());
        for out in [&new, &old] {
            map(&file, out).prints("no area\n");
        }
    }
    map(folder.file("none.scene", &Scene::new().bytes()), &new).prints("no area\n");
    assert!(!Path::new(&new).exists());
    assert_eq!(fs::read(&old).unwrap(), b"a picture");
    // An output that is the input is wrong use all the same.
    let file = folder.file("none.txt", b"map\n");
    let ran = map(&file, &file);
    assert_eq!((ran.status, &*ran.out), (Some(2), ""));
    assert_eq!(fs::read(&file).unwrap(), b"map\n");
}

#[test]
fn the_example() {
    let folder = Folder::new();
    let out = folder.place("lists.png");
    let printed = "area 08000 08080\n0 8030 28\n1 8018 24\n3 804C 28\n4 8068 24\n";
    map(repository("examples/lists.scene"), &out).prints(printed);
    let picture = Picture::read(&out);
    // Its second row is from 8020h on: the rest of the second list, and of the first.
    let row = bytes(&picture, 44, 32);
    let widths: Vec<usize> = row.iter().map(|(_, width)| *width).collect();
    assert_eq!(widths, [16, 16]);
    assert!(row.iter().all(|(colour, _)| *colour != FREE));
}

#[test]
fn what_cant_be_read_or_written_is_told() {
    let folder = Folder::new();
    let old = folder.file("old.png", b"a picture");
    let missing = folder.place("missing.scene");
    let said = format!("{missing}: No such file or directory (os error 2)\n");
    map(&missing, &old).fails(1, &said);
    let mut bytes = Scene::new().each('L', &[0, 0]).bytes();
    bytes.pop();
    let file = folder.file("cut.scene", &bytes);
    let said = format!("{file}: the scene ends early, at byte 69639, in record number 2\n");
    map(&file, &old).fails(1, &said);
    let file = folder.file("a.txt", b"area 0 2\n");
    let out = folder.place("missing/out.png");
    let said = format!("{out}: No such file or directory (os error 2)\n");
    map(&file, &out).fails(1, &said);
    assert_eq!(fs::read(&old).unwrap(), b"a picture");
}
