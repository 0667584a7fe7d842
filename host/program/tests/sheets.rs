//! `plombrisa sheet`: a map as a sheet and back, and what is refused.
mod common;

use common::*;
use plombrisa::{Kind, read_pfm, write_sheet};
use std::fs;

#[test]
fn a_map_goes_out_and_comes_back() {
    let (map, sheet, back) = (own("sheet_in.pfm"), own("map.sheet"), own("sheet_out.pfm"));
    for (options, kind, word) in [(&["--no-subpixel"][..], Kind::Whole, "whole"), (&[], Kind::Exact, "exact")] {
        printed(&[&["match", LEFT, RIGHT, text_of(&map)], &SEARCH[..], options].concat());
        let file = fs::read(&map).expect("the map");
        let bytes = write_sheet(read_pfm(&file).expect("a map").map(), kind).expect("a sheet");
        let out = printed(&["sheet", "write", text_of(&map), text_of(&sheet), "--kind", word]);
        assert_eq!(out, format!("size: 200 by 150\nsheet: {} bytes\n", bytes.len()));
        assert!(fs::read(&sheet).expect("the sheet") == bytes);
        assert_eq!(printed(&["sheet", "read", text_of(&sheet), text_of(&back)]), format!("size: 200 by 150\nkind: {word}\n"));
        assert!(fs::read(&back).expect("the map") == file, "{word}: another map came back");
        assert_eq!(printed(&["sheet", "read", text_of(&sheet), text_of(&back), "--quiet"]), "");
    }
    let by_pipe = started_with(&["sheet", "write", "-", "-"], &fs::read(&map).expect("the map"));
    assert_eq!(by_pipe.status, Some(0), "{}", by_pipe.err);
    assert!(by_pipe.bytes == fs::read(&sheet).expect("the sheet") && by_pipe.err.starts_with("size: 200 by 150\n"));
}

#[test]
fn sheets_that_are_refused() {
    let out = own("no.sheet");
    let _ = fs::remove_file(&out);
    let half = written("half.pfm", b"Pf\n1 1\n-1.0\n\0\0\0\x3F");
    fails(&["sheet", "write", &half, text_of(&out), "--kind=whole"], &[&half, "refused, 32: "]);
    let faults: [(&[u8], &str); 5] = [
        (b"", "34"),
        (b"\x02", "35"),
        (b"\x01\x01\x00\x01", "36"),
        (b"\x01\x00\x01\x01", "34"),
        (b"\x01\x00\x01\x01\x00\x00", "38"),
    ];
    for (bytes, number) in faults {
        let sheet = written("bad.sheet", bytes);
        fails(&["sheet", "read", &sheet, text_of(&out)], &[&sheet, &format!("refused, {number}: ")]);
    }
    assert!(!out.exists());
}
