//! The example in C compiles without a warning and prints what it should.

#[path = "common/c.rs"]
mod c;

#[test]
fn the_example_runs() {
    let Some(printed) = c::output(&c::root().join("host/example/example.c"), "example") else { return };
    let wanted = "\
set up; 875360 bytes of tables
CREATE_CLIENT at 0 ms
reply 01 00 00 00 05 00 03 00 00 00 00
CREATE of participant 7 at 5 ms
call create_participant, domain 0: handle 41
reply 01 00 00 00 05 00 03 00 07 00 00
a submessage that there isn't at 6 ms
refused 2, byte 3
session 1 has 1 object, number 7
writing is open next on weekday 0 at minute 480
sweep at 1006 ms: 1 ended, the first is 1
";
    assert_eq!(printed, wanted);
}
