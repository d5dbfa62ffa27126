//! Why a row misses its goal, told by other figures of the same run.

use crate::agent_rows::FEW;
use crate::row::{median, paired, Goal, Row};
use crate::table::nanoseconds;
use crate::yardsticks::Yardsticks;

/// From which growth on more objects count as a reason.
const NOTABLE: f64 = 1.15;

/// The row of that name, sessions and objects.
fn find<'a>(rows: &'a [Row], name: &str, sessions: usize, objects: usize) -> Option<&'a Row> {
    rows.iter().find(|row| row.name == name && row.sessions == sessions && row.objects == objects)
}

fn port(row: &Row) -> String {
    nanoseconds(median(&row.port))
}

fn original(row: &Row) -> String {
    nanoseconds(median(&row.original))
}

/// The port's table of sessions has 256 rows, however many are live.
fn of_sweeps(rows: &[Row]) -> Option<String> {
    let name = "sweep that finds none";
    let (one, all) = (find(rows, name, 1, 0)?, find(rows, name, 255, 0)?);
    Some(format!(
        "a sweep of the port reads the mark of every row of the table, five at a test, {} ns with 1 session live and {} ns with 255; \
         the original's goes over the live ones, {} ns and {} ns",
        port(one),
        port(all),
        original(one),
        original(all)
    ))
}

/// Cutting and reassembling are copies and little else.
fn of_copies(row: &Row, yard: &Yardsticks) -> String {
    let copies = if row.name.starts_with("cut") { 1.0 } else { 2.0 };
    format!(
        "it is copying: the C library, which the original's copies go to, moves 64 KiB in {} ns; the port took \
         {} ns for each 64 KiB",
        nanoseconds(yard.copy),
        nanoseconds(median(&row.port) / copies)
    )
}

/// A string's bytes are looked at one by one.
fn of_strings(rows: &[Row]) -> Option<String> {
    let read = |what| find(rows, what, 0, 0);
    let (short, long) = (read("read a string of 16 bytes")?, read("read a string of 255 bytes")?);
    let pairs = read("read a string of 127 two-byte characters")?;
    let letter = |of: fn(&Row) -> &Vec<f64>| (median(of(long)) - median(of(short))) / 239.0;
    Some(format!(
        "the port takes a string's bytes one by one through the rows of RFC 3629's table, {:.2} ns for a letter and {:.2} ns for a byte of \
         a two-byte character; the original, which copies them too, takes {:.2} ns and {:.2} ns",
        letter(|row| &row.port),
        median(&pairs.port) / 254.0,
        letter(|row| &row.original),
        median(&pairs.original) / 254.0
    ))
}

fn of_parsing(rows: &[Row], row: &Row, yard: &Yardsticks) -> Option<String> {
    if row.name.starts_with("parse 1 ") {
        return Some(format!(
            "header and submessages are two calls of the port, and the shortest call of its interface takes {} ns",
            nanoseconds(yard.call)
        ));
    }
    let hundred = rows.iter().find(|other| other.name.starts_with("parse 100") && same_kind(other, row))?;
    let one = rows.iter().find(|other| other.name.starts_with("parse 1 ") && same_kind(other, row))?;
    let each = |of: fn(&Row) -> &Vec<f64>| (median(of(hundred)) - median(of(one))) / 99.0;
    Some(format!(
        "a further submessage takes the port {:.1} ns, in which it is checked, read and written as eight numbers; the \
         original {:.1} ns",
        each(|row| &row.port),
        each(|row| &row.original)
    ))
}

fn same_kind(one: &Row, other: &Row) -> bool {
    one.name.split(' ').nth(2) == other.name.split(' ').nth(2)
}

/// What more objects add, where it is worth telling.
fn of_objects(rows: &[Row], row: &Row) -> Option<String> {
    let fewest = rows.iter().filter(|other| other.name == row.name && other.sessions == row.sessions);
    let fewest = fewest.min_by_key(|other| other.objects).filter(|few| few.objects < row.objects)?;
    if paired(&row.port, &fewest.port) < NOTABLE {
        return None;
    }
    let more = (median(&row.port) - median(&fewest.port)) / (row.objects - fewest.objects) as f64;
    Some(format!(
        "the port goes over the session's records, {} ns with {} of them and {} ns with {} ({more:.1} ns a record); \
         the original takes {} ns and {} ns",
        port(fewest),
        fewest.objects,
        port(row),
        row.objects,
        original(fewest),
        original(row)
    ))
}

/// How many calls of the port a row's turn takes. A bridge call splits a datagram into two.
fn calls(row: &Row) -> usize {
    let split = ["WRITE_DATA", "READ_DATA", "CREATE of"].iter().any(|name| row.name.starts_with(name));
    match row.goal {
        Goal::Datagrams(count) => 2 * count,
        _ if split => 2,
        _ => 1,
    }
}

fn of_calls(rows: &[Row], row: &Row, yard: &Yardsticks) -> Option<String> {
    if calls(row) == 1 {
        return Some(format!(
            "the port's one call takes {} ns, where the shortest call of its interface takes {} ns",
            port(row),
            nanoseconds(yard.call)
        ));
    }
    let single = find(rows, "DELETE of an unknown object", row.sessions, usize::from(FEW))?;
    Some(format!(
        "it is {} calls of the port, {} ns each; a datagram without a bridge call (DELETE of an unknown object) takes \
         {} ns",
        calls(row),
        nanoseconds(median(&row.port) / calls(row) as f64),
        port(single)
    ))
}

/// Why a row is slower than its goal asks.
pub fn slow(rows: &[Row], row: &Row, yard: &Yardsticks) -> String {
    let fragments = row.name.starts_with("cut") || row.name.starts_with("reassemble");
    let why = match row.goal {
        Goal::NoSlower if row.sessions > 0 => of_sweeps(rows),
        Goal::NoSlower if fragments => Some(of_copies(row, yard)),
        _ if row.name.contains("string") || row.name.contains("255-byte") => of_strings(rows),
        Goal::Parsing => of_parsing(rows, row, yard),
        _ => of_objects(rows, row).or_else(|| of_calls(rows, row, yard)),
    };
    why.unwrap_or_else(|| "no other row explains it".into())
}

/// Why a row isn't flat.
pub fn grown(rows: &[Row], row: &Row) -> String {
    let one = find(rows, row.name, 1, row.objects).unwrap_or(row);
    format!(
        "going round more sessions fetches more rows and records; the original's time in the same rounds is {:.2} times \
         its own at one session",
        paired(&row.original, &one.original)
    )
}
