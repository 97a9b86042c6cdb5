//! The tables' places in a document: a line `<!-- begin NAME -->` before a table, and `<!-- end NAME -->` after it.

/// The document with a table in its place; none where it has no such place.
pub fn filled(document: &str, name: &str, table: &str) -> Option<String> {
    let (begin, end) = (format!("<!-- begin {name} -->\n"), format!("<!-- end {name} -->"));
    let (before, rest) = document.split_once(&begin)?;
    let (_, after) = rest.split_once(&end)?;
    Some(format!("{before}{begin}\n{table}\n{end}{after}"))
}

#[cfg(test)]
mod tests {
    use super::*;

    #[test]
    fn a_table_takes_the_place_of_the_old_one() {
        let document =
            |table: &str| format!("before\n<!-- begin a -->\n{table}<!-- end a -->\nafter");
        let filled_once = filled(&document("old\n"), "a", "| new |\n").unwrap();
        assert_eq!(filled_once, document("\n| new |\n\n"));
        assert_eq!(filled(&filled_once, "a", "| new |\n"), Some(filled_once.clone()));
        assert_eq!(filled(&filled_once, "b", "| new |\n"), None);
    }
}
