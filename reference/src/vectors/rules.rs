//! The rules of docs/FORMAT.md that the cases test.

/// Name, section of docs/FORMAT.md, and the rule in short.
pub type Rule = (&'static str, &'static str, &'static str);

const SUITES: &str = "Suites";
const STATUSES: &str = "Statuses";
const ORDER: &str = "In which order each routine checks";

pub const RULES: &[Rule] = &[
    ("cipher", SUITES, "the suite's block cipher; words are little-endian, word 0 first; CHAM has 80 rounds"),
    ("sealing", SUITES, "how a text is sealed: start, doubling, marks, blocks, tag"),
    (
        "doubling",
        SUITES,
        "the doubling shifts bytes 0 to 7 of Z left by one and XORs 1b where a 1 dropped out; the new Z stays",
    ),
    (
        "marks",
        SUITES,
        "a mark at the first block of each text, at a short last one, and at the tag; none for an empty text",
    ),
    ("padding", SUITES, "a short block gets byte 01 and then zeros; a full one gets nothing"),
    ("absorbing", SUITES, "Y becomes X XOR the message block, in sealing and in opening"),
    ("version 2", SUITES, "suites 5 and 6 double 120 bits of Z and mark after the call (docs/comet-v2.md)"),
    ("tag", STATUSES, "8: the whole tag is compared"),
    ("after 8", ORDER, "8 leaves every byte of the output 0"),
    ("order", ORDER, "the first status that applies, in the routine's order, is given; the outputs stay as they were"),
    ("session", ORDER, "a session's calls, and one record whatever the cutting"),
    ("lookup", ORDER, "the full check, 32, 0; a lookup that succeeds gives its row"),
    ("search", ORDER, "20 to 24 alone, then the binary search over the rows as they stand"),
    ("opening a job", ORDER, "the full check, 32, 2, 6, 8, 0"),
    ("the file", "The file", "header, rows and bodies, with nothing between or after them"),
    ("draft", "Drafts", "sealing changes edition, messages and tags, and no other byte; unsealing is the way back"),
    (
        "reseal",
        ORDER,
        "only entries of suite 4 are opened; they become suite 3 with the same key number, nonce and message",
    ),
    ("edition 2", "Edition 2", "four bytes of station after each job number; total length and offsets rise by 4n"),
    (
        "amendment",
        "Amendments",
        "the current entry is the amendment's if it has the job, else the day's; both files are checked",
    ),
    ("comparison", ORDER, "jobs in one file alone, and jobs that differ in anything but the offset, in rising order"),
    ("report", ORDER, "20 over 65,280 bytes, the full check, 2, 6, 0; then 0 or 8 for each entry"),
    ("status 20", STATUSES, "20: the file is shorter than 8 bytes or longer than 1,048,576"),
    ("status 21", STATUSES, "21: the edition is not one that this routine takes"),
    ("status 22", STATUSES, "22: more than 512 rows"),
    ("status 23", STATUSES, "23: the total length in the header is not the file's"),
    ("status 24", STATUSES, "24: the table runs past the file's end"),
    ("status 25", STATUSES, "25: the row's job number is not above the one before"),
    ("status 26", STATUSES, "26: the row's suite is not 1 to 6, or its key number is over 15"),
    (
        "status 27",
        STATUSES,
        "27: the row's associated data is not 5 to 1,024 bytes long, or its message is over 65,536",
    ),
    ("status 28", STATUSES, "28: the row's body does not start where it has to, or ends past the file"),
    ("status 29", STATUSES, "29: an earlier row has the row's suite, key number and nonce"),
    ("status 30", STATUSES, "30: the row's associated data starts with another job number, or its unit is not 1 or 2"),
    ("status 31", STATUSES, "31: the last body does not end where the file ends"),
    ("status 32", STATUSES, "32: no row has the job"),
    ("status 33", STATUSES, "33: a draft's tag has a byte that is not 0"),
    ("status 34", STATUSES, "34: the row's suite reads 15 nonce bytes, and the 16th is not 0"),
    ("status 35", STATUSES, "35: moving back to edition 1: a station is not 0"),
    ("status 36", STATUSES, "36: a list of the comparison is longer than its buffer"),
];

pub fn rule(name: &str) -> Rule {
    *RULES.iter().find(|rule| rule.0 == name).unwrap_or_else(|| panic!("no rule {name}"))
}
