//! The words of a text: brackets, commas and semicolons stand alone, and so
//! does the full stop that ends the names of a `λ`.

use crate::source::Line;

const ALONE: &str = "(){}⌜⌝,;";

pub fn is_open(token: &str) -> bool {
    matches!(token, "(" | "{" | "[" | "⌜")
}

pub fn is_close(token: &str) -> bool {
    matches!(token, ")" | "}" | "]" | "⌝")
}

/// Puts spaces around what stands alone. `[]` is a name.
fn spaced(text: &str) -> String {
    let mut spaced = String::new();
    for c in text.chars() {
        match c {
            '«' | '»' => {}
            c if ALONE.contains(c) => spaced.extend([' ', c, ' ']),
            '[' => spaced.push_str(" ["),
            ']' => spaced.push_str("] "),
            c => spaced.push(c),
        }
    }
    spaced
}

/// A word, parted from its brackets and its last full stop.
fn parted(word: &str) -> Vec<String> {
    let inner = word.trim_start_matches('[').trim_end_matches(']');
    if word == "[]" || word.is_empty() {
        return vec![word.to_string()];
    }
    let before = word.len() - word.trim_start_matches('[').len();
    let after = word.len() - word.trim_end_matches(']').len();
    let mut parts = vec!["[".to_string(); before];
    match inner.strip_suffix('.') {
        Some(name) if !name.is_empty() => parts.extend([name.to_string(), ".".to_string()]),
        _ if inner.is_empty() => {}
        _ => parts.push(inner.to_string()),
    }
    parts.extend(vec!["]".to_string(); after]);
    parts
}

/// The tokens of a text.
pub fn of_text(text: &str) -> Vec<String> {
    spaced(text).split_whitespace().flat_map(parted).collect()
}

/// The tokens of some lines.
pub fn tokens(lines: &[Line]) -> Vec<String> {
    lines.iter().flat_map(|line| of_text(&line.code)).collect()
}

/// Where a token first stands outside all brackets.
pub fn outside(tokens: &[String], wanted: &str) -> Option<usize> {
    let mut depth = 0;
    for (i, token) in tokens.iter().enumerate() {
        if depth == 0 && token == wanted {
            return Some(i);
        }
        depth += i32::from(is_open(token)) - i32::from(is_close(token));
    }
    None
}

#[cfg(test)]
mod tests {
    use super::*;

    #[test]
    fn brackets_and_the_stop_of_a_lambda_stand_alone() {
        assert_eq!(
            of_text("f (λ x y. x.low) (g x).high m.name []").join("|"),
            "f|(|λ|x|y|.|x.low|)|(|g|x|)|.high|m.name|[]"
        );
        assert_eq!(
            of_text("use A.b.C.{d, ◌∷◌}").join("|"),
            "use|A.b.C|.|{|d|,|◌∷◌|}"
        );
        assert_eq!(of_text("(λ (k : ℕ). k)").join("|"), "(|λ|(|k|:|ℕ|)|.|k|)");
        assert_eq!(of_text("[ true ↦ a ]").join("|"), "[|true|↦|a|]");
    }

    #[test]
    fn a_token_inside_brackets_is_not_outside() {
        let tokens = of_text("f {A = ℕ} x = y");
        assert_eq!(outside(&tokens, "="), Some(7));
        assert_eq!(outside(&tokens, "z"), None);
    }
}
