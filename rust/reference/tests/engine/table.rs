use reference::image::{halfword, pack_file};
use reference::table::{defined_halfwords, fit_pairs, rows, MANUAL_DATE, SAMPLE};

#[test]
fn printed_rows() {
    let printed: Vec<String> = rows().into_iter().map(|row| row.result).collect();
    let expected = [
        "0 Z1 C1",
        "refused 13 0",
        "refused 11 10",
        "refused 10 10",
        "refused 12 0",
        "1 block, last halfword 0xC090",
        "fit 14 256 256",
        "refused 10 10",
        "19264",
        "7484",
    ];
    assert_eq!(printed, expected);
    assert_eq!(MANUAL_DATE, "20 September 2015");
}

#[test]
fn totals() {
    assert_eq!(defined_halfwords(), 19_264);
    let windows = [
        (4, 4),
        (4, 65_532),
        (8, 65_528),
        (256, 256),
        (0x7FFC, 4),
        (0x7FFC, 0x8004),
        (0xFFF8, 4),
        (0xFFFC, 4),
    ];
    for (w, l) in windows {
        assert_eq!(fit_pairs(w, l), 7_484, "{w} {l}");
    }
}

#[test]
fn the_block_of_the_sample() {
    let file = pack_file(&SAMPLE, 256, 256).unwrap();
    assert_eq!(file.len(), 512);
    assert_eq!(halfword(&file, 255), 0xC090);
}
