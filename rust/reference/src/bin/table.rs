//! Prints the bench table.

use reference::table::{rows, MANUAL_DATE};

fn main() {
    println!("{MANUAL_DATE}");
    for row in rows() {
        println!("{}: {}", row.what, row.result);
    }
}
