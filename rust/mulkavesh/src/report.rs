//! What is kept and dropped.

/// What [`gc`](crate::gc) keeps and drops.
#[derive(Debug, Clone, Copy, Default, PartialEq, Eq, Hash)]
pub struct Report {
    /// Functions, imported ones among them, as of all kinds.
    pub functions: Counts,
    /// Tables.
    pub tables: Counts,
    /// Memories.
    pub memories: Counts,
    /// Tags.
    pub tags: Counts,
    /// Globals.
    pub globals: Counts,
    /// Element segments.
    pub elements: Counts,
    /// Data segments.
    pub data: Counts,
    /// Bytes.
    pub bytes: Sizes,
}

/// How many items of a kind are kept, and how many dropped.
#[derive(Debug, Clone, Copy, Default, PartialEq, Eq, Hash)]
pub struct Counts {
    /// How many are kept.
    pub kept: u64,
    /// How many are dropped.
    pub dropped: u64,
}

/// How many bytes there are.
#[derive(Debug, Clone, Copy, Default, PartialEq, Eq, Hash)]
pub struct Sizes {
    /// Those of the input.
    pub read: u64,
    /// Those of the output.
    pub written: u64,
    /// Those that bodies of functions which are dropped have in the input.
    pub dropped: u64,
    /// Those that custom sections of debug information (`.debug*`) have in the input; all go.
    pub debug: u64,
}

impl Sizes {
    /// By how many bytes the rest of the input, which is neither the body of a dropped function nor
    /// debug information, became less; below 0 where it became more. Functions stand by falling
    /// size in the output, so that indices may take more bytes there.
    pub fn rest(self) -> i64 {
        let rest = self.read - self.dropped - self.debug;
        rest as i64 - self.written as i64
    }
}

/// The number in front of a line, behind these words, and what is behind it.
fn number<'a>(words: &str, text: &'a str) -> Option<(u64, &'a str)> {
    let rest = text.strip_prefix(words)?;
    let end = rest.find(|digit: char| !digit.is_ascii_digit())?;
    let (digits, rest) = rest.split_at(end);
    Some((digits.parse().ok()?, rest))
}

/// The line of a kind of items, and what is behind it.
fn counts<'a>(kind: &str, text: &'a str) -> Option<(Counts, &'a str)> {
    let (kept, rest) = number(" kept ", text.strip_prefix(kind)?)?;
    let (dropped, rest) = number(" dropped ", rest)?;
    Some((Counts { kept, dropped }, rest.strip_prefix('\n')?))
}

impl Report {
    /// What the lines of the library say.
    fn read(lines: &str) -> Option<Report> {
        let (functions, rest) = counts("functions", lines)?;
        let (tables, rest) = counts("tables", rest)?;
        let (memories, rest) = counts("memories", rest)?;
        let (tags, rest) = counts("tags", rest)?;
        let (globals, rest) = counts("globals", rest)?;
        let (elements, rest) = counts("elements", rest)?;
        let (data, rest) = counts("data", rest)?;
        let (read, rest) = number("bytes read ", rest)?;
        let (written, rest) = number(" written ", rest)?;
        let (dropped, rest) = number("\nbytes of dropped functions ", rest)?;
        let (debug, _) = number("\nbytes of debug information ", rest)?;
        let bytes = Sizes {
            read,
            written,
            dropped,
            debug,
        };
        Some(Report {
            functions,
            tables,
            memories,
            tags,
            globals,
            elements,
            data,
            bytes,
        })
    }

    /// What the library answers.
    pub(crate) fn of(answer: &[u8]) -> Report {
        let lines = std::str::from_utf8(answer).expect("the lines are UTF-8");
        Report::read(lines).expect("the lines are those of the library")
    }
}

#[cfg(test)]
mod tests {
    use super::*;

    const LINES: &str = "functions kept 1 dropped 2
tables kept 3 dropped 4
memories kept 5 dropped 6
tags kept 7 dropped 8
globals kept 9 dropped 10
elements kept 11 dropped 12
data kept 13 dropped 4294967296
bytes read 100 written 60
bytes of dropped functions 20
bytes of debug information 15
bytes of the rest 5 less
";

    fn counts_of(kept: u64, dropped: u64) -> Counts {
        Counts { kept, dropped }
    }

    #[test]
    fn lines_are_read() {
        let wanted = Report {
            functions: counts_of(1, 2),
            tables: counts_of(3, 4),
            memories: counts_of(5, 6),
            tags: counts_of(7, 8),
            globals: counts_of(9, 10),
            elements: counts_of(11, 12),
            data: counts_of(13, 1 << 32),
            bytes: Sizes {
                read: 100,
                written: 60,
                dropped: 20,
                debug: 15,
            },
        };
        assert_eq!(Report::of(LINES.as_bytes()), wanted);
        assert_eq!(wanted.bytes.rest(), 5);
        let more = Sizes {
            written: 70,
            ..wanted.bytes
        };
        assert_eq!(more.rest(), -5);
    }

    #[test]
    fn other_lines_are_none() {
        for cut in 0..LINES.len() - 28 {
            assert_eq!(Report::read(&LINES[..cut]), None, "of {cut} bytes");
        }
    }
}
