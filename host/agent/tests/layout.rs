//! The records have the layout that a C compiler gives those of include/xrce_agent.h.

#[path = "common/c.rs"]
mod c;

use std::fs;
use std::mem::{align_of, offset_of, size_of};
use std::path::Path;
use xrce_agent::lent::{
    AgentRecord, ObjectRecord, SessionRow, StreamRow, HELD, HOURS, LENGTHS, OBJECTS, PARTS, REBUILT, SESSIONS, STREAMS,
};
use xrce_agent::Window;

// A line of C and the same line from Rust for each field.
macro_rules! fields {
    ($lines:ident, $record:ident, $c:literal, $($field:ident)*) => {
        $({
            let c = concat!("struct ", $c, ", ", stringify!($field));
            let size = concat!("sizeof(((struct ", $c, " *)0)->", stringify!($field), ")");
            let at = offset_of!($record, $field);
            let end = at + field_size(|record: &$record| size_of_val(&record.$field));
            $lines.push((format!("offsetof({c}), offsetof({c}) + {size}"), (at, end)));
        })*
        let c = concat!("sizeof(struct ", $c, "), _Alignof(struct ", $c, ")");
        $lines.push((c.into(), (size_of::<$record>(), align_of::<$record>())));
    };
}

fn field_size<T: Default>(size: impl Fn(&T) -> usize) -> usize {
    size(&T::default())
}

fn lines() -> Vec<(String, (usize, usize))> {
    let mut lines = Vec::new();
    fields!(lines, AgentRecord, "xrce_agent", max_clients timeout_ms next open kind parent session stream number at time
        is_open left_at left_end wrote call handle topic start len type_start type_len);
    fields!(lines, ObjectRecord, "xrce_object", number kind bridged handle parent);
    lines.push((
        "sizeof(xrce_session_row), sizeof(xrce_stream_row)".into(),
        (size_of::<SessionRow>(), size_of::<StreamRow>()),
    ));
    lines.push(("(size_t)XRCE_SESSIONS, (size_t)XRCE_STREAMS".into(), (SESSIONS, STREAMS)));
    let all = 300_896 + 255 * (HELD + PARTS + 4 * LENGTHS);
    lines.push(("(size_t)XRCE_OBJECTS, sizeof(struct xrce_tables)".into(), (OBJECTS, all)));
    lines.push(("(size_t)XRCE_HELD, (size_t)XRCE_MAX_CLIENTS".into(), (HELD, 255)));
    lines.push(("(size_t)XRCE_PARTS, (size_t)XRCE_LENGTHS".into(), (PARTS, LENGTHS)));
    lines.push(("(size_t)XRCE_REBUILT, (size_t)XRCE_NOT_IN_FRAGMENTS".into(), (REBUILT, 17)));
    lines.push(("(size_t)XRCE_OVER_LIMIT, (size_t)XRCE_ILL_FORMED".into(), (16, 18)));
    lines.push(("sizeof(xrce_window), (size_t)XRCE_HOURS".into(), (size_of::<Window>(), HOURS)));
    lines.push(("(size_t)XRCE_WINDOW_FAULT, (size_t)XRCE_NO_SUCH_MINUTE".into(), (19, 20)));
    lines
}

#[test]
fn the_layout_is_the_headers() {
    let lines = lines();
    let prints: Vec<String> = lines.iter().map(|(c, _)| format!("    printf(\"%zu %zu\\n\", {c});")).collect();
    let text = format!(
        "#include <stdio.h>\n#include \"xrce_agent.h\"\nint main(void) {{\n{}\n    return 0;\n}}\n",
        prints.join("\n")
    );
    let source = Path::new(env!("CARGO_TARGET_TMPDIR")).join("layout.c");
    fs::write(&source, text).expect("a file in the target folder");
    let Some(printed) = c::output(&source, "layout") else { return };
    let wanted: Vec<String> = lines.iter().map(|(_, (a, b))| format!("{a} {b}")).collect();
    assert_eq!(printed.lines().collect::<Vec<_>>(), wanted);
    assert_eq!(lines.len(), AgentRecord::NUMBERS + 5 + 2 + 9);
}
