//! `list`, `verify`, `open`, `current` and `diff`.

use crate::desk::Desk;

#[test]
fn a_listing_without_a_ring_claims() {
    let desk = Desk::new("claims");
    let listed = desk.call("list day.shift").done();
    assert!(listed.starts_with("day.shift: edition 1, 8 entries\n"));
    assert!(
        listed.contains("  4103  claimed inch-pounds          -  3 Speck-64/128 v1    2     63  claimed\n"),
        "{listed}"
    );
    assert!(!listed.contains("verified"));
}

#[test]
fn a_listing_with_a_ring_verifies_units_and_never_stations() {
    let desk = Desk::new("verifies");
    let listed = desk.call("list stations.shift --ring ring.keys").done();
    assert!(listed.contains("  4103  inch-pounds        207  3 Speck-64/128 v1    2     63  verified\n"), "{listed}");
    assert!(!listed.contains("claimed "));
    assert!(listed.ends_with("stations are what the file claims.\n"));
}

/// A unit that was exchanged in the file passes the check; only the tag detects it.
#[test]
fn an_exchanged_unit_stays_a_claim() {
    let desk = Desk::new("exchanged");
    let mut bytes = desk.read("day.shift");
    let unit_of_row_0 = 8 + 32 * 8 + 4;
    assert_eq!(bytes[unit_of_row_0], 1);
    bytes[unit_of_row_0] = 2;
    desk.write("day.shift", &bytes);
    let ran = desk
        .call("list day.shift --ring ring.keys")
        .ended(1, &["1 of 8 entries has a wrong tag", "job 4101", "Do not use"]);
    assert!(ran.out.contains("4101  claimed inch-pounds"), "{}", ran.out);
    assert!(ran.out.contains("100  WRONG TAG\n"));
    assert_eq!(ran.out.matches("  verified\n").count(), 7);
    let ran =
        desk.call("open day.shift 4101 --ring ring.keys").ended(1, &["job 4101", "status 8", "Do not use this entry"]);
    assert_eq!(ran.out, "");
    assert!(!ran.err.contains("right ring"));
    let csv = desk.call("list day.shift --ring ring.keys --csv").out;
    assert!(csv.contains("day.shift,4101,inch-pounds,false,,1,0,100,WRONG TAG\n"), "{csv}");
}

#[test]
fn csv_and_json_for_scripts() {
    let desk = Desk::new("scripts");
    let csv = desk.call("list day.shift stations.shift --csv --ring ring.keys").done();
    let lines: Vec<&str> = csv.lines().collect();
    assert_eq!(lines.len(), 17);
    assert_eq!(lines[0], "file,job,unit,unit_verified,station,suite,key,length,verdict");
    assert_eq!(lines[3], "day.shift,4103,inch-pounds,true,,3,2,63,verified");
    assert_eq!(lines[11], "stations.shift,4103,inch-pounds,true,207,3,2,63,verified");
    let json = desk.shell(
        "$program list day.shift missing stations.shift day.draft --json | python3 -c '
import json, sys
first, missing, second, draft = json.load(sys.stdin)
print(first[\"edition\"], [entry[\"job\"] for entry in first[\"entries\"]], second[\"entries\"][2])
print(missing, draft[\"error\"][:40])'",
    );
    let expected = "1 [4101, 4102, 4103, 4105, 4110, 4200, 4210, 4211] {'job': 4103, 'unit': 'inch-pounds', \
        'unit_verified': False, 'station': 207, 'suite': 3, 'key': 2, 'length': 63, 'verdict': 'claimed'}\n\
        {'file': 'missing', 'error': 'missing cannot be read: No such file or directory'} \
        day.draft: the file's edition is not one\n";
    assert_eq!(json.out, expected);
}

#[test]
fn many_files_in_one_run() {
    let desk = Desk::new("many");
    let names: Vec<String> = (0..300).map(|index| format!("day {index}.shift")).collect();
    for name in &names {
        desk.write(name, desk.read("day.shift"));
    }
    desk.write(&names[7], b"short");
    desk.write(&names[9], desk.read("amendment.shift"));
    std::fs::remove_file(desk.path(&names[8])).unwrap();
    let mut args: Vec<&str> = vec!["verify", "--ring", "ring.keys"];
    args.extend(names.iter().map(String::as_str));
    let ran = desk.run(&args).ended(3, &["day 7.shift has 5 bytes.", "day 8.shift cannot be read: No such file"]);
    assert_eq!(ran.out.lines().count(), 300);
    assert_eq!(ran.out.matches("8 entries, verified\n").count(), 297);
    assert!(ran.out.contains("day 7.shift: REFUSED\nday 8.shift: NOT READ\nday 9.shift: 3 entries, verified\n"));
}

#[test]
fn a_wrong_ring_is_asked_about() {
    let desk = Desk::new("wrong-ring");
    desk.write("other.keys", [7; 256]);
    let words = ["8 of 8 entries have a wrong tag (status 8): jobs 4101 4102", "is it the right ring?"];
    let ran = desk.call("verify day.shift --ring other.keys").ended(1, &words);
    assert_eq!(ran.out, "day.shift: 8 entries, 8 WRONG TAG\n");
    desk.call("open day.shift 4103 --ring other.keys").ended(1, &["job 4103", "is it the right ring?"]);
    desk.call("unseal day.shift out --ring other.keys").ended(1, &["row 0, job 4101", "is it the right ring?"]);
    assert!(!desk.path("out").exists());
}

#[test]
fn one_job_is_opened() {
    let desk = Desk::new("open");
    let expected = "\
file     stations.shift
job      4103
unit     inch-pounds, verified
suite    3, Speck-64/128, COMET version 1
key      2
station  207, claimed: a tag does not cover it
data     line 2 station 7
message  gearbox 4103 bolt 1/4-28 count 6 torque 106 108 107 107 106 109
";
    assert_eq!(desk.call("open stations.shift 4103 --ring ring.keys").done(), expected);
    assert!(!desk.call("open day.shift 4103 --ring ring.keys").done().contains("station  "));
    let json = desk.call("open day.shift 4110 --ring ring.keys --json").done();
    assert!(json.contains(r#""data": {"text": ""}, "message": {"text": ""}}"#), "{json}");
    desk.call("open day.shift 4104 --ring ring.keys")
        .ended(1, &["status 32", "`snoekeldraf list day.shift` shows the jobs"]);
}

/// The message is for the owner alone, byte for byte.
#[test]
fn a_message_goes_to_a_file() {
    let desk = Desk::new("message");
    let shown = desk.shell("umask 000; $program open day.shift 4103 --ring ring.keys --out message").done();
    assert!(shown.ends_with("message  63 bytes in message\n"));
    assert!(desk.read("message").starts_with(b"gearbox 4103 bolt"));
    assert_eq!(desk.mode("message"), 0o600);
    desk.call("open day.shift 4103 --ring ring.keys --out ring.keys").ended(2, &["ring.keys is the ring"]);
}

#[test]
fn the_current_entry_is_the_amendments() {
    let desk = Desk::new("current");
    let amended = desk.call("current amendment.shift day.shift 4102 --ring ring.keys").done();
    assert!(amended.starts_with("file     amendment.shift\n") && amended.contains("data     quality\n"));
    let other = desk.call("current amendment.shift day.shift 4103 --ring ring.keys").done();
    assert!(other.starts_with("file     day.shift\n"));
    let words = ["amendment.shift and day.shift", "status 32"];
    desk.call("current amendment.shift day.shift 4104 --ring ring.keys").ended(1, &words);
    desk.call("current amendment.shift day.draft 4102 --ring ring.keys").ended(1, &["day.draft: the file's edition"]);
    desk.write("amendment.shift", b"");
    desk.call("current amendment.shift day.shift 4102 --ring ring.keys").ended(1, &["amendment.shift has 0 bytes."]);
}

#[test]
fn differences_are_named() {
    let desk = Desk::new("diff");
    assert_eq!(desk.call("diff day.shift day.shift").done(), "");
    let ran = desk.call("diff day.shift amendment.shift").ended(1, &[]);
    let expected = "\
only in day.shift, 6 jobs: 4101 4103 4105 4200 4210 4211
only in amendment.shift, 1 job: 4220
in both and different, 2 jobs:
  4102  key 1 -> 7, length 78 -> 101, data, nonce, ciphertext, tag
  4110  key 2 -> 7, length 0 -> 63, data, nonce, ciphertext, tag
No tag was compared: units, stations and data are what each file claims.
";
    assert_eq!((&ran.out[..], &ran.err[..]), (expected, ""));
    let stations = desk.call("diff day.shift stations.shift --csv").ended(1, &[]).out;
    assert!(stations.starts_with("job,where,field,first,second\n4101,both,station,0,207\n"), "{stations}");
    desk.call("reseal day.shift new.shift --ring ring.keys").done();
    let resealed = desk.call("diff day.shift new.shift --json").ended(1, &[]).out;
    assert!(
        resealed.contains(r#"{"job": 4105, "fields": [{"field": "suite", "first": "4 CHAM-64/128 v1", "#),
        "{resealed}"
    );
    desk.call("diff day.shift day.draft").ended(1, &["day.draft: the file's edition"]);
    desk.call("diff missing day.shift").ended(3, &["missing cannot be read"]);
}

/// Text that `./run job` shows in hexadecimal is shown as text, but nothing that steers a terminal is.
#[test]
fn text_is_text_and_nothing_steers_the_terminal() {
    let desk = Desk::new("text");
    let message = "48.5 N·m ± 0.2, Prüfer Ü, 扭矩";
    let table = format!(
        "job,suite,key,unit,data,message\n1,3,0,1,Linie ü,\"{message}\"\n2,3,0,1,\u{1b}[2J,\u{202e}a\n3,3,0,1,,\"a\nb\"\n"
    );
    desk.write("table.csv", table);
    desk.call("draft table.csv a.draft").done();
    desk.call("seal a.draft a.shift --ring ring.keys").done();
    let opened = desk.call("open a.shift 1 --ring ring.keys").done();
    assert!(opened.ends_with(&format!("data     Linie ü\nmessage  {message}\n")), "{opened}");
    let opened = desk.call("open a.shift 2 --ring ring.keys").done();
    assert!(opened.ends_with("data     (hex) 1b5b324a\nmessage  (hex) e280ae61\n"), "{opened}");
    let opened = desk.call("open a.shift 3 --ring ring.keys --json").done();
    assert!(opened.contains(r#""message": {"hex": "610a62"}"#), "{opened}");
    desk.write("\u{1b}[2J", b"");
    let ran = desk.run(&["list", "\u{1b}[2J"]).ended(1, &["\"\\x1b[2J\" has 0 bytes."]);
    assert!(!ran.err.contains('\u{1b}'));
}
