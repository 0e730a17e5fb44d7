//! What the numbers of refusals mean.

/// What a number means, in the words of docs/FAULTS.md, if that page has it.
pub fn meaning_of(number: u32) -> Option<&'static str> {
    let place = MEANINGS.binary_search_by_key(&number, |it| it.0).ok()?;
    Some(MEANINGS[place].1)
}

#[rustfmt::skip]
// The table of docs/FAULTS.md, written by packaging/faults.
const MEANINGS: [(u32, &str); 44] = [
    (1, "a line is longer than 1,048,575 bytes"),
    (2, "unknown command"),
    (3, "a line is malformed, or a commit-ish is no expression"),
    (4, "bad count or delimiter of a `data`"),
    (5, "a part of a command is missing or misplaced"),
    (6, "the stream is cut off in a line or a `data`"),
    (7, "the stream asked for `done` and ended without it"),
    (8, "a feature or option that is not supported"),
    (9, "a feature or option that comes too late"),
    (10, "bad path"),
    (11, "bad ref name"),
    (12, "bad mark"),
    (13, "no object has this mark"),
    (14, "the repository has no object of this name"),
    (15, "the object is of another kind"),
    (16, "a name or expression names nothing in the repository, or an unborn branch"),
    (17, "several object names begin with these digits"),
    (18, "the source of a copy or rename has no file"),
    (19, "a branch is to start from itself"),
    (20, "a file would be at the root"),
    (21, "bad identity"),
    (22, "bad date"),
    (23, "bad mode"),
    (24, "another content of this repository has the object name"),
    (25, "a limit is passed"),
    (30, "the tenant has no stream"),
    (31, "the tenant has a stream, even if it is dead"),
    (32, "bad tenant name"),
    (33, "the target of a copy, or a tenant that a merge brings, has an object, a ref, or another HEAD than `refs/heads/main`"),
    (40, "unknown query"),
    (41, "malformed query: above 8,192 bytes, or what follows its word is not what the word asks for"),
    (50, "an unknown frame kind, or a length that does not go with its kind"),
    (51, "the input ends inside a frame"),
    (60, "no pool file"),
    (61, "a pool file of a version other than 1 and 2"),
    (62, "a pool file is cut off"),
    (63, "the digest of the pool file is wrong"),
    (64, "a pool file is not written as a save would write it"),
    (65, "an object of a pool file is invalid: its kind, its contents, a limit, an empty directory in a tree"),
    (66, "an object of a pool file refers to none before it, or to one of another kind; or a ref has no object"),
    (67, "a ref or HEAD of a pool file has a bad name, or the ref holds an object that it may not"),
    (68, "a device failed or never ends, or another run has the pool file"),
    (69, "bytes follow the digest of a pool file"),
    (90, "an allocation failed: memory ran out"),
];
// The end of the table.

#[cfg(test)]
mod tests {
    use super::*;

    // The numbers and meanings of docs/FAULTS.md, "What they mean, and what to do".
    fn rows_of(page: &str) -> Vec<(u32, String)> {
        let (_, part) = page.split_once("\n## What they mean, and what to do\n").unwrap();
        let (part, _) = part.split_once("\n## ").unwrap();
        let cells = part.lines().map(|line| line.split(" | ").collect::<Vec<_>>()).filter(|it| it.len() == 4);
        cells.filter_map(|it| Some((it[0].strip_prefix("| ")?.parse().ok()?, without_links(it[1])))).collect()
    }

    // A link such as [FORMATS.md](FORMATS.md) stands as docs/FORMATS.md.
    fn without_links(cell: &str) -> String {
        match (cell.split_once('['), cell.split_once("](")) {
            (Some((before, _)), Some((_, rest))) => {
                let (target, after) = rest.split_once(')').unwrap();
                format!("{before}docs/{target}{after}")
            }
            _ => cell.to_string(),
        }
    }

    #[test]
    fn has_the_meanings_of_the_page() {
        let page = concat!(env!("CARGO_MANIFEST_DIR"), "/../../docs/FAULTS.md");
        let page = std::fs::read_to_string(page).expect("this test runs in a checkout");
        let rows = rows_of(&page);
        assert!(rows.len() > 40);
        assert_eq!(rows.len(), MEANINGS.len());
        for (number, meaning) in rows {
            assert_eq!(meaning_of(number), Some(meaning.as_str()));
        }
        assert_eq!(meaning_of(0), None);
    }
}
