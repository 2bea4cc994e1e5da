//! Tables of jobs in CSV (RFC 4180): fields in quotes may hold separators, line ends and doubled quotes.

/// A record: the line it begins on, counted from 1, and its fields.
#[derive(Clone, PartialEq, Eq, Debug)]
pub struct Record {
    pub line: usize,
    pub fields: Vec<String>,
}

/// Why a table cannot be read, and on which line.
#[derive(Clone, PartialEq, Eq, Debug)]
pub struct Malformed {
    pub line: usize,
    pub words: &'static str,
}

/// Where the reader is in a field.
#[derive(Clone, Copy, PartialEq, Eq, Debug)]
enum Place {
    Start,
    Bare,
    Quoted,
    /// After a quote inside quotes: the end, or the first of two.
    AfterQuote,
}

/// The records of a table, without empty lines. The separator is the first comma, semicolon or tab of the first line. A mark
/// of the byte order at the start, as spreadsheets write it, does not count.
pub fn records(bytes: &[u8]) -> Result<Vec<Record>, Malformed> {
    let text = std::str::from_utf8(bytes).map_err(|error| {
        let line = 1 + bytes[..error.valid_up_to()].iter().filter(|byte| **byte == b'\n').count();
        Malformed { line, words: "is not UTF-8: save the table as UTF-8, or write bytes in hexadecimal" }
    })?;
    let text = text.strip_prefix('\u{feff}').unwrap_or(text);
    let first_line = text.lines().next().unwrap_or("");
    let separator = first_line.chars().find(|character| matches!(character, ',' | ';' | '\t')).unwrap_or(',');
    let mut reader = Reader::new(separator);
    let mut characters = text.chars().peekable();
    while let Some(character) = characters.next() {
        // A carriage return before a line feed is part of the line's end, unless it stands in quotes.
        if character == '\r' && characters.peek() == Some(&'\n') && reader.place != Place::Quoted {
            continue;
        }
        reader.take(character)?;
    }
    reader.finish()
}

struct Reader {
    separator: char,
    place: Place,
    line: usize,
    current: Record,
    field: String,
    records: Vec<Record>,
}

impl Reader {
    fn new(separator: char) -> Reader {
        let current = Record { line: 1, fields: vec![] };
        Reader { separator, place: Place::Start, line: 1, current, field: String::new(), records: vec![] }
    }

    fn take(&mut self, character: char) -> Result<(), Malformed> {
        match (self.place, character) {
            (Place::Quoted, '"') => self.place = Place::AfterQuote,
            (Place::Quoted, _) => {
                self.line += usize::from(character == '\n');
                self.field.push(character);
            }
            (Place::AfterQuote, '"') => {
                self.field.push('"');
                self.place = Place::Quoted;
            }
            (_, '\n') => self.end_record(),
            (_, _) if character == self.separator => self.end_field(),
            (Place::Start, '"') => self.place = Place::Quoted,
            (Place::AfterQuote, _) => return self.malformed("has text after a closing quote"),
            (_, '"') => return self.malformed("has a quote inside a field without quotes"),
            (_, _) => {
                self.field.push(character);
                self.place = Place::Bare;
            }
        }
        Ok(())
    }

    fn malformed(&self, words: &'static str) -> Result<(), Malformed> {
        Err(Malformed { line: self.line, words })
    }

    fn end_field(&mut self) {
        self.current.fields.push(std::mem::take(&mut self.field));
        self.place = Place::Start;
    }

    fn end_record(&mut self) {
        let is_empty_line = self.place == Place::Start && self.current.fields.is_empty();
        self.end_field();
        self.line += 1;
        let next = Record { line: self.line, fields: vec![] };
        let ended = std::mem::replace(&mut self.current, next);
        if !is_empty_line {
            self.records.push(ended);
        }
    }

    fn finish(mut self) -> Result<Vec<Record>, Malformed> {
        if self.place == Place::Quoted {
            return Err(Malformed { line: self.current.line, words: "has a quote that is not closed" });
        }
        self.end_record();
        Ok(self.records)
    }
}

#[cfg(test)]
mod tests {
    use super::*;

    fn fields(table: &str) -> Vec<Vec<String>> {
        records(table.as_bytes()).unwrap().into_iter().map(|record| record.fields).collect()
    }

    #[test]
    fn fields_with_and_without_quotes() {
        assert_eq!(fields("a,b\n1,\"x,\"\"y\"\"\nz\"\n"), [vec!["a", "b"], vec!["1", "x,\"y\"\nz"]]);
        assert_eq!(fields("a,b\r\n1,\r\n\r\n,2"), [["a", "b"], ["1", ""], ["", "2"]]);
        assert_eq!(fields("\u{feff}a;b\n1,5;2\n"), [["a", "b"], ["1,5", "2"]]);
        assert_eq!(fields("a\tb\n1\t\"\"\n"), [["a", "b"], ["1", ""]]);
        assert_eq!(fields("a,b\n\"1\r\n2\",3"), [["a", "b"], ["1\r\n2", "3"]]);
        assert!(fields("").is_empty() && fields("\n\r\n").is_empty());
        assert_eq!(fields("a\n\"\"\n"), [["a"], [""]]);
    }

    #[test]
    fn lines_are_counted() {
        let table = records(b"a\n\"x\ny\"\n\nz").unwrap();
        assert_eq!(table.iter().map(|record| record.line).collect::<Vec<_>>(), [1, 2, 5]);
    }

    #[test]
    fn malformed_tables_are_refused() {
        for (table, line) in [(&b"a\n1\"2"[..], 2), (b"a\n\"1\"2", 2), (b"a\n\"1\n2", 2), (b"a\nb\n\xff", 3)] {
            assert_eq!(records(table).unwrap_err().line, line, "{table:?}");
        }
    }
}
