//! Herd lists as they come: from a scale head, or out of a spreadsheet.

const BYTE_ORDER_MARK: &[u8] = b"\xEF\xBB\xBF";
const UTF_16: [&[u8]; 2] = [b"\xFF\xFE", b"\xFE\xFF"];

/// A list in the form that the calls read, and what had to be put right for it.
pub struct List {
    pub bytes: Vec<u8>,
    pub put_right: Vec<&'static str>,
}

impl List {
    /// A spreadsheet may write a byte order mark, carriage returns, and no line feed at the end.
    pub fn of(bytes: Vec<u8>) -> Result<List, &'static str> {
        if UTF_16.iter().any(|mark| bytes.starts_with(mark)) {
            return Err("it is saved as UTF-16; save it as UTF-8, in a spreadsheet as CSV UTF-8");
        }
        let mut list = List { bytes, put_right: Vec::new() };
        if list.bytes.starts_with(BYTE_ORDER_MARK) {
            list.bytes.drain(..BYTE_ORDER_MARK.len());
            list.put_right.push("a byte order mark");
        }
        if list.bytes.last().is_some_and(|&last| last != b'\n') {
            list.bytes.push(b'\n');
            list.put_right.push("a last line without its line feed");
        }
        let with_feed_alone = |line: &[u8]| match line.strip_suffix(b"\r\n") {
            Some(text) => [text, b"\n"].concat(),
            None => line.to_vec(),
        };
        let bytes: Vec<u8> = list.lines().into_iter().flat_map(with_feed_alone).collect();
        if bytes.len() < list.bytes.len() {
            list.bytes = bytes;
            list.put_right.push("carriage returns");
        }
        Ok(list)
    }

    /// Its lines, each with its line feed.
    pub fn lines(&self) -> Vec<&[u8]> {
        self.bytes.split_inclusive(|&byte| byte == b'\n').collect()
    }
}
