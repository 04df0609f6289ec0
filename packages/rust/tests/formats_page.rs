//! The examples of docs/reference/FORMATS.md, where the repository has that page.

use std::fs;

use muxandu::format_description;
use muxandu::macros::datetime;

const PAGE: &str = concat!(env!("CARGO_MANIFEST_DIR"), "/../../docs/reference/FORMATS.md");

/// The text of a cell in code, or None.
fn code(cell: &str) -> Option<&str> {
    cell.strip_prefix('`')?.strip_suffix('`')
}

#[test]
fn components_write_the_texts_of_the_page() {
    let Ok(page) = fs::read_to_string(PAGE) else {
        return;
    };
    let at = datetime!(2024-02-29 2:30:00.5 +2);
    let mut count = 0;
    for row in page.lines().filter(|row| row.starts_with("| `[")) {
        let cells: Vec<&str> = row.split(" | ").collect();
        let component = code(cells[0].trim_start_matches("| ")).expect("a component");
        let items = format_description::parse_borrowed::<2>(component).expect(component);
        let text = at.format(&items).expect(component);
        assert_eq!(text, code(cells[1]).unwrap_or(""), "{component}");
        count += 1;
    }
    assert_eq!(count, 32);
}
