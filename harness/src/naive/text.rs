//! The two text forms, by splitting.
//!
//!   names              the names line of a presentation text
//!   presentation       the lines of a presentation text
//!   read_table         the words of a table text, or the refusal
//!   write_table        the text of words, or the refusal

/// The lines of a presentation text: every p and every word, by j and i.
pub struct Lines {
    pub n: usize,
    pub p: Vec<Vec<u32>>,
    pub words: Vec<Vec<Vec<u32>>>,
}

/// The names line of n generators, without its end.
pub fn names(n: usize) -> String {
    let mut names = String::from("j i p");
    for k in 1..=n {
        names += &format!(" e{k}");
    }
    names
}

/// The lines of a text, each without its end; none if the last one has no end.
fn lines(text: &[u8]) -> Option<Vec<&[u8]>> {
    let body = text.strip_suffix(b"\n")?;
    Some(body.split(|&byte| byte == b'\n').collect())
}

/// The value of a field: one to nine digits, no leading zero.
fn value(field: &[u8]) -> Option<u32> {
    let digits = field.iter().all(u8::is_ascii_digit) && (1..=9).contains(&field.len());
    if !digits || (field.len() > 1 && field[0] == b'0') {
        return None;
    }
    std::str::from_utf8(field).ok()?.parse().ok()
}

/// The values of a line of so many.
fn values(line: &[u8], count: usize) -> Option<Vec<u32>> {
    let values: Option<Vec<u32>> = line.split(|&byte| byte == b' ').map(value).collect();
    values.filter(|values| values.len() == count)
}

pub fn presentation(text: &[u8]) -> Option<Lines> {
    let lines = lines(text)?;
    let n = lines[0].split(|&byte| byte == b' ').count().checked_sub(3)?;
    if n == 0 || lines[0] != names(n).as_bytes() || lines.len() != 1 + n * (n + 1) / 2 {
        return None;
    }
    let mut p = vec![vec![0; n]; n];
    let mut words = vec![vec![vec![0; n]; n]; n];
    let mut rest = lines[1..].iter();
    for j in 0..n {
        for i in std::iter::once(j).chain(0..j) {
            let row = values(rest.next()?, n + 3)?;
            if row[0] as usize != j + 1 || row[1] as usize != i + 1 {
                return None;
            }
            p[j][i] = row[2];
            words[j][i] = row[3..].to_vec();
        }
    }
    Some(Lines { n, p, words })
}

const TABLE: &[u8] = b"level rep deg gen ref col row exp";

pub fn read_table(text: &[u8], have: usize) -> Result<Vec<u32>, u32> {
    let ends = text.iter().filter(|&&byte| byte == b'\n').count();
    if have < 8 * ends.saturating_sub(1) {
        return Err(16);
    }
    let lines = lines(text).filter(|lines| lines[0] == TABLE).ok_or(20u32)?;
    let rows: Option<Vec<Vec<u32>>> = lines[1..].iter().map(|line| values(line, 8)).collect();
    Ok(rows.ok_or(20u32)?.concat())
}

pub fn write_table(words: &[u32], room: usize) -> Result<Vec<u8>, u32> {
    if words.len() % 8 != 0 || words.iter().any(|&word| word > 999_999_999) {
        return Err(21);
    }
    let mut text = TABLE.to_vec();
    text.push(b'\n');
    for line in words.chunks(8) {
        let fields: Vec<String> = line.iter().map(u32::to_string).collect();
        text.extend(fields.join(" ").bytes());
        text.push(b'\n');
    }
    if room < text.len() {
        return Err(16);
    }
    Ok(text)
}
