//! Fields of lines: Python's `csv` has the same texts in them.
use super::is;
use crate::field_spans::muxandu_field_spans;
use crate::values::MuxanduSpan;
use std::process::Abort;

const BLOCK: &[u8] = b"a,b\n\"c,d\",e\r\n\"f\ng\",\"\"\nh\n,i,\"j\"";

// Ends the test unless the fields of this number are these texts.
fn are_fields(rt: &impl Abort, field: usize, texts: [&str; 5]) {
    let mut out = [MuxanduSpan {
        start: 0,
        length: 0,
    }; 6];
    let done = muxandu_field_spans(BLOCK, field, b',', b'"', &mut out);
    is(rt, (done.count, done.status), (5, 0));
    for (span, text) in out.iter().zip(texts) {
        let rest = BLOCK.get(span.start..).unwrap_or(&[]);
        is(rt, rest.get(..span.length) == Some(text.as_bytes()), true);
    }
}

#[test]
fn fields_of_lines(rt: HostRuntime) {
    are_fields(&rt, 0, ["a", "c,d", "f\ng", "h", ""]);
    are_fields(&rt, 1, ["b", "e", "", "", "i"]);
    are_fields(&rt, 2, ["", "", "", "", "j"]);
}

#[test]
fn quotes_that_do_not_close(rt: HostRuntime) {
    let mut out = [MuxanduSpan {
        start: 7,
        length: 7,
    }; 4];
    let block = b"\"a\";\",x\n\"b\" \n\"c\"\r\n\"de\"\"";
    let done = muxandu_field_spans(block, 0, b',', b'"', &mut out);
    is(&rt, (done.count, done.status), (4, 0));
    // Bytes follow the quote that closes the first two, and no quote closes the last.
    is(&rt, (out[0].start, out[0].length), (0, 5));
    is(&rt, (out[1].start, out[1].length), (8, 4));
    is(&rt, (out[2].start, out[2].length), (14, 1));
    is(&rt, (out[3].start, out[3].length), (18, 5));
    let done = muxandu_field_spans(block, 1, b',', b'"', &mut out);
    is(&rt, (done.count, done.status), (4, 0));
    is(&rt, (out[0].start, out[0].length), (6, 1));
    is(&rt, (out[2].start, out[2].length), (17, 0));
}

#[test]
fn lines_without_room(rt: HostRuntime) {
    let mut out = [MuxanduSpan {
        start: 7,
        length: 7,
    }; 2];
    let done = muxandu_field_spans(b"1 2\n3 4\n5 6", 1, b' ', b' ', &mut out);
    is(&rt, (done.count, done.status), (2, 20));
    is(&rt, (out[0].start, out[0].length), (2, 1));
    is(&rt, (out[1].start, out[1].length), (6, 1));
    let done = muxandu_field_spans(b"", 0, b',', b'"', &mut out);
    is(&rt, (done.count, done.status), (0, 0));
}
