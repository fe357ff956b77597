//! A source as lines, and its lines as chunks: what starts at one column,
//! with all that stands deeper or inside its brackets.

/// A line without its comment; and what the comment says, where the line is
/// nothing else.
#[derive(Clone, Debug, PartialEq)]
pub struct Line {
    pub number: usize,
    pub indent: usize,
    pub code: String,
    pub note: Option<String>,
}

/// What stands together, and the comment lines directly above it.
pub struct Chunk<'a> {
    pub notes: Vec<String>,
    pub lines: &'a [Line],
}

/// Where the comment of a line begins: at its mark, first or after a space.
fn comment(line: &str, mark: &str) -> Option<usize> {
    line.match_indices(mark).map(|(at, _)| at).find(|&at| {
        line[..at]
            .chars()
            .next_back()
            .is_none_or(char::is_whitespace)
    })
}

/// The lines of a text whose comments begin with the mark.
pub fn lines(text: &str, mark: &str) -> Vec<Line> {
    let line = |(n, line): (usize, &str)| {
        let at = comment(line, mark);
        let code = line[..at.unwrap_or(line.len())].trim();
        let said = at.filter(|_| code.is_empty());
        Line {
            number: n + 1,
            indent: line.len() - line.trim_start().len(),
            code: code.to_string(),
            note: said.map(|at| line[at + mark.len()..].trim().to_string()),
        }
    };
    text.lines().enumerate().map(line).collect()
}

/// How many brackets a line opens, less those that it closes.
fn opened(code: &str) -> i32 {
    let outside = code.split('"').step_by(2);
    let worth = |c: char| match c {
        '(' | '[' | '{' => 1,
        ')' | ']' | '}' => -1,
        _ => 0,
    };
    outside.flat_map(str::chars).map(worth).sum()
}

/// The chunks of some lines. The first line of code has the column at which
/// they all start; a line goes on where it stands deeper, where a bracket is
/// open, and where it opens a body.
pub fn chunks(lines: &[Line]) -> Vec<Chunk<'_>> {
    let is_code = |line: &&Line| !line.code.is_empty();
    let base = lines.iter().find(is_code).map_or(0, |line| line.indent);
    let mut found: Vec<(usize, usize, Vec<String>)> = Vec::new();
    let mut notes = Vec::new();
    let mut depth = 0;
    for (i, line) in lines.iter().enumerate() {
        if let Some(note) = &line.note {
            notes.push(note.clone());
            continue;
        }
        if !line.code.is_empty() {
            let goes_on = depth > 0 || line.indent > base || line.code.starts_with('{');
            match found.last_mut() {
                Some(last) if goes_on => last.1 = i + 1,
                _ => found.push((i, i + 1, std::mem::take(&mut notes))),
            }
            depth += opened(&line.code);
        }
        notes.clear();
    }
    let chunk = |(from, to, notes): (usize, usize, Vec<String>)| Chunk {
        notes,
        lines: &lines[from..to],
    };
    found.into_iter().map(chunk).collect()
}

/// The numbers of the lines that have code.
pub fn numbers(lines: &[Line]) -> Vec<usize> {
    let code = lines.iter().filter(|line| !line.code.is_empty());
    code.map(|line| line.number).collect()
}

/// Comment lines joined to one sentence. A heading (`-- ---- ..`) is left out
/// where more is said below it.
pub fn sentence(notes: &[String]) -> Option<String> {
    let heading = |note: &&String| note.starts_with("----");
    let plain: Vec<&str> = notes
        .iter()
        .filter(|note| !heading(note))
        .map(String::as_str)
        .collect();
    let said = if plain.is_empty() {
        notes.last()?.trim_start_matches('-').trim().to_string()
    } else {
        plain.join(" ")
    };
    (!said.is_empty()).then_some(said)
}

#[cfg(test)]
mod tests {
    use super::*;

    #[test]
    fn a_comment_is_no_code() {
        let found = lines("-- says\nname : ℕ -- here\nname = a--b", "--");
        assert_eq!(found[0].note.as_deref(), Some("says"));
        assert_eq!(found[1].code, "name : ℕ");
        assert_eq!(found[1].note, None);
        assert_eq!(found[2].code, "name = a--b");
    }

    #[test]
    fn a_chunk_goes_on_deeper_and_inside_brackets() {
        let text = "-- of a\na : T\n  deeper\na = f {\n  x = y;\n}\n\n-- apart\n\nb : T";
        let lines = lines(text, "--");
        let chunks = chunks(&lines);
        let shape: Vec<_> = chunks.iter().map(|c| numbers(c.lines)).collect();
        assert_eq!(shape, [vec![2, 3], vec![4, 5, 6], vec![10]]);
        assert_eq!(chunks[0].notes, ["of a"]);
        assert!(
            chunks[2].notes.is_empty(),
            "a blank line parts a comment from what follows"
        );
    }

    #[test]
    fn a_heading_is_a_sentence_only_where_it_stands_alone() {
        let said = |notes: &[&str]| {
            let notes: Vec<String> = notes.iter().map(|n| n.to_string()).collect();
            sentence(&notes)
        };
        assert_eq!(said(&["---- one call"]).as_deref(), Some("one call"));
        assert_eq!(
            said(&["---- calls", "an open", "page"]).as_deref(),
            Some("an open page")
        );
        assert_eq!(said(&[]), None);
    }
}
