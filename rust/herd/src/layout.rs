//! Columns and bars in text.

/// Rows under their headers, each column as wide as its widest word; one whose header begins with a space has its words
/// at the right.
pub fn columns(headers: &[&str], rows: &[Vec<String>]) -> String {
    let width = |at: usize| rows.iter().map(|row| row[at].chars().count()).max().unwrap_or(0);
    let width = |at: usize| width(at).max(headers[at].trim().chars().count());
    let widths: Vec<usize> = (0..headers.len()).map(width).collect();
    let padded = |(at, word): (usize, &str)| match headers[at].starts_with(' ') {
        true => format!("{word:>0$}", widths[at]),
        false => format!("{word:<0$}", widths[at]),
    };
    let line = |words: Vec<&str>| {
        let line: Vec<String> = words.into_iter().enumerate().map(padded).collect();
        format!("{}\n", line.join("  ").trim_end())
    };
    let head = line(headers.iter().map(|header| header.trim()).collect());
    head + &rows.iter().map(|row| line(row.iter().map(String::as_str).collect())).collect::<String>()
}

/// A part of a whole as a bar of so many characters, rounded up: what is there is seen.
pub fn bar(part: usize, whole: usize, width: usize) -> String {
    "#".repeat((part * width).div_ceil(whole.max(1)))
}

/// A bucket as a bar: `#` for live slots, `x` for dead ones, `.` for room that is left. Wide buckets have a character for
/// several slots, rounded up.
pub fn bucket_bar(live: usize, built: usize, room: usize) -> String {
    let width = room.min(32);
    let cells = |slots: usize| (slots * width).div_ceil(room);
    let dead = cells(built - live);
    let live = cells(built) - dead;
    format!("{}{}{}", "#".repeat(live), "x".repeat(dead), ".".repeat(width - live - dead))
}

#[cfg(test)]
mod tests {
    use super::*;

    #[test]
    fn bars() {
        assert_eq!([0, 1, 5, 10].map(|part| bar(part, 10, 5)), ["", "#", "###", "#####"]);
        assert_eq!(bar(0, 0, 5), "");
        assert_eq!(bucket_bar(0, 0, 4), "....");
        assert_eq!(bucket_bar(2, 3, 4), "##x.");
        assert_eq!(bucket_bar(4_095, 4_096, 4_096), format!("{}x", "#".repeat(31)));
        assert_eq!(bucket_bar(4_000, 4_000, 4_096), "#".repeat(32));
    }

    #[test]
    fn aligned() {
        let rows = [["a", "12"], ["long", "7"]].map(|row| row.map(str::to_string).to_vec());
        assert_eq!(columns(&["name", " n"], &rows), "name   n\na     12\nlong   7\n");
    }
}
