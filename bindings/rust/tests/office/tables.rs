//! `draft`: tables of jobs, and the nonce counter.

use crate::desk::Desk;
use std::fs;

const HEADER: &str = "job,suite,key,unit,data,message\n";

/// The draft of a table, sealed and listed.
fn listed(desk: &Desk, table: impl AsRef<[u8]>) -> String {
    desk.write("table.csv", table);
    desk.call("draft table.csv a.draft --nonces counter").done();
    desk.call("seal a.draft a.shift --ring ring.keys").done();
    desk.call("list a.shift --ring ring.keys --csv").done().split_once('\n').unwrap().1.to_owned()
}

#[test]
fn a_table_becomes_a_shift_file() {
    let desk = Desk::new("table");
    let table =
        format!("{HEADER}4102,1,2,newton-metres,line 2,torque 48.5\n4101,3,0,inch-pounds,,\"torque 106, 108\"\n");
    let expected = "a.shift,4101,inch-pounds,true,,3,0,15,verified\na.shift,4102,newton-metres,true,,1,2,11,verified\n";
    assert_eq!(listed(&desk, table), expected);
    assert!(desk
        .call("open a.shift 4101 --ring ring.keys")
        .done()
        .ends_with("data     (empty)\nmessage  torque 106, 108\n"));
    assert_eq!(desk.mode("a.draft"), 0o600);
    assert_eq!(desk.mode("counter"), 0o600);
    assert_eq!(listed(&desk, HEADER), "", "a table without jobs");
}

#[test]
fn tables_of_spreadsheets() {
    let desk = Desk::new("spreadsheets");
    let expected = "a.shift,7,inch-pounds,true,,3,0,3,verified\n";
    for table in [
        "\u{feff}job;suite;key;unit;data;message\r\n7;3;0;2;;4,5\r\n",
        "job\tsuite\tkey\tunit\tdata\tmessage\n7\t3\t0\tinch-pounds\t\t4,5",
        "message,unit,data,key,suite,job\n\"4,5\",2,,0, 3 , 7\n\n",
        "\"job\",\"suite\",\"key\",\"unit\",\"data_hex\",\"message_hex\"\n7,3,0,2,,342c35\n",
    ] {
        assert_eq!(listed(&desk, table), expected, "{table}");
        assert!(desk.call("open a.shift 7 --ring ring.keys").done().ends_with("message  4,5\n"));
    }
    listed(&desk, format!("{HEADER}7,3,0,1,,\"two\nlines, \"\"quoted\"\"\"\n"));
    desk.call("open a.shift 7 --ring ring.keys --out message").done();
    assert_eq!(desk.read("message"), b"two\nlines, \"quoted\"");
    listed(&desk, "job,suite,key,unit,data_hex,message_hex\n7,3,0,1,00FF,00\n");
    assert!(desk.call("open a.shift 7 --ring ring.keys").done().ends_with("data     (hex) 00ff\nmessage  (hex) 00\n"));
}

#[test]
fn wrong_tables_are_refused_with_their_line() {
    let desk = Desk::new("wrong-tables");
    for (table, words) in [
        ("", "table.csv: empty; its first line names the columns: job, suite"),
        ("7,3,0,1,,\n", "there is no column job"),
        ("job,suite,key,unit,data\n", "there is no column message"),
        ("job,suite,key,unit,data,message,nonce\n", "columns with other names"),
        ("job,job,suite,key,unit,data,message\n", "the column job is there twice"),
        ("job,suite,key,unit,data,data_hex,message\n", "exclude each other"),
        ("H\n7,3,0,1,,\n", "there is no column job"),
    ] {
        desk.write("table.csv", table);
        desk.call("draft table.csv a.draft --nonces counter").ended(1, &[words]);
    }
    for (line, words) in [
        ("7,3,0,1,", "line 3: 5 fields, the first line has 6"),
        ("7,3,0,1,,,", "line 3: 7 fields"),
        ("x,3,0,1,,", "line 3: the job is no number"),
        ("4294967296,3,0,1,,", "line 3: the job is no number from 0 to 4294967295"),
        ("1e3,3,0,1,,", "line 3: the job is no number"),
        ("7,7,0,1,,", "line 3: the suite is no number from 1 to 6"),
        ("7,3,16,1,,", "line 3: the key is no number from 0 to 15"),
        ("7,3,0,Nm,,", "line 3: the unit is not newton-metres (or 1) or inch-pounds (or 2)"),
        ("7,3,0,,,", "line 3: the unit is not"),
        ("7,4,0,1,,", "line 3, job 7: suite 4 is retired"),
        ("6,3,0,1,,", "line 3, job 6: the row's job number is not above the row before's (status 25)"),
        ("7,3,0,1,,a\"b", "line 3 has a quote inside a field without quotes"),
        ("7,3,0,1,,\"a", "line 3 has a quote that is not closed"),
    ] {
        desk.write("table.csv", format!("{HEADER}6,3,0,1,,\n{line}"));
        desk.call("draft table.csv a.draft --nonces counter").ended(1, &["table.csv: ", words]);
    }
    desk.write("table.csv", format!("{HEADER}9,3,0,1,,\n7,3,0,1,,\n9,3,0,1,,\n"));
    desk.call("draft table.csv a.draft --nonces counter").ended(1, &["line 4, job 9: ", "Line 2 has this job too."]);
    desk.write("table.csv", [HEADER.as_bytes(), b"7,3,0,1,,\xb1 0.5\n"].concat());
    desk.call("draft table.csv a.draft --nonces counter").ended(1, &["line 2 is not UTF-8: save the table as UTF-8"]);
    assert!(!desk.path("a.draft").exists());
}

#[test]
fn limits_of_the_format_are_the_librarys() {
    let desk = Desk::new("limits");
    let rows = |count: usize| (0..count).map(|job| format!("{job},6,1,1,,m\n")).collect::<String>();
    assert_eq!(listed(&desk, format!("{HEADER}{}", rows(512))).lines().count(), 512);
    desk.write("table.csv", format!("{HEADER}{}", rows(513)));
    desk.call("draft table.csv b.draft --nonces counter").ended(1, &["status 22"]);
    let long = |data: usize, message: usize| format!("{HEADER}7,6,1,1,{},{}\n", "d".repeat(data), "m".repeat(message));
    assert!(listed(&desk, long(1_019, 65_536)).contains(",65536,verified"));
    for (data, message) in [(1_020, 0), (0, 65_537)] {
        desk.write("table.csv", long(data, message));
        desk.call("draft table.csv b.draft --nonces counter").ended(1, &["line 2, job 7", "status 27"]);
    }
    desk.write(
        "table.csv",
        format!("{HEADER}{}", (0..17).map(|job| format!("{job},6,1,1,,{}\n", "m".repeat(65_536))).collect::<String>()),
    );
    desk.call("draft table.csv b.draft --nonces counter").ended(1, &["status 20"]);
    fs::File::create(desk.path("table.csv")).unwrap().set_len(5_000_000_000).unwrap();
    desk.call("draft table.csv b.draft --nonces counter").ended(1, &["table.csv: longer than 4,194,304 bytes"]);
    assert!(!desk.path("b.draft").exists());
}

#[test]
fn the_counter_is_kept() {
    let desk = Desk::new("counter");
    let count = |desk: &Desk| String::from_utf8(desk.read("counter")).unwrap();
    listed(&desk, format!("{HEADER}1,3,0,1,,\n2,3,0,1,,\n"));
    assert_eq!(count(&desk), "snoekeldraf nonce counter, version 1\nnext 2\n");
    // a refused table takes none
    desk.write("table.csv", format!("{HEADER}1,4,0,1,,\n"));
    desk.call("draft table.csv b.draft --nonces counter").ended(1, &[]);
    assert!(count(&desk).ends_with("next 2\n"));
    // a draft that cannot be written has taken them
    desk.write("table.csv", format!("{HEADER}1,3,0,1,,\n"));
    desk.call("draft table.csv no/b.draft --nonces counter").ended(3, &[]);
    assert!(count(&desk).ends_with("next 3\n"));
    // a counter that cannot be advanced gives none
    desk.shell("ulimit -f 0; $program draft table.csv b.draft --nonces counter")
        .ended(3, &["counter cannot be written: File too large"]);
    assert!(!desk.path("b.draft").exists());
    for damaged in [
        "snoekeldraf nonce counter, version 1\nnext 3",
        "x",
        "snoekeldraf nonce counter, version 1\nnext 18446744073709551616\n",
    ] {
        desk.write("counter", damaged);
        desk.call("draft table.csv b.draft --nonces counter").ended(1, &["counter is no nonce counter, or is damaged"]);
        assert_eq!(count(&desk), damaged);
    }
    desk.write("counter", "snoekeldraf nonce counter, version 1\nnext 18446744073709551615\n");
    desk.call("draft table.csv b.draft --nonces counter").ended(1, &["every nonce is used"]);
}

#[test]
fn a_counter_is_a_file_of_its_own() {
    let desk = Desk::new("own-counter");
    desk.write("table.csv", format!("{HEADER}1,3,0,1,,\n"));
    std::os::unix::fs::symlink(".", desk.path("own")).unwrap();
    for out in ["counter", "./counter", "own/counter"] {
        let _ = fs::remove_file(desk.path("counter"));
        let words = format!("{out} is the nonce counter: it is not overwritten");
        desk.call(&format!("draft table.csv {out} --nonces counter")).ended(2, &[&words]);
    }
    desk.call("draft table.csv a.draft --nonces .").ended(3, &["the nonce counter . cannot be used: Is a directory"]);
    desk.call("draft table.csv a.draft --nonces /dev/null").ended(3, &["it is no regular file"]);
    desk.call("draft table.csv a.draft --nonces table.csv").ended(1, &["table.csv is no nonce counter"]);
    desk.call("draft table.csv a.draft").done();
    assert!(desk.read("state/snoekeldraf/nonces").ends_with(b"next 1\n"));
    std::os::unix::fs::symlink("state/snoekeldraf/nonces", desk.path("link")).unwrap();
    desk.call("draft table.csv a.draft --nonces link").done();
    assert!(desk.read("state/snoekeldraf/nonces").ends_with(b"next 2\n"));
    assert!(fs::symlink_metadata(desk.path("link")).unwrap().is_symlink());
    let nowhere =
        desk.command().env_remove("HOME").env_remove("XDG_STATE_HOME").args(["draft", "table.csv", "b.draft"]).output();
    crate::desk::Ran::from(nowhere.unwrap()).ended(2, &["--nonces is missing"]);
}
