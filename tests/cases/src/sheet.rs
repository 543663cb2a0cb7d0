//! A sheet: lines for its readers, remarks for the script, and cases under what they begin with.

/// A line of a sheet, with the lines that go on with it.
#[derive(Clone, Copy, Debug, PartialEq, Eq)]
pub enum Row<'sheet> {
    /// A line that goes into the script as it is.
    Remark(&'sheet str),
    /// Behind `=`: the words that build what the cases below begin with.
    Base(&'sheet str),
    /// A case.
    Case(Case<'sheet>),
}

/// A case: `name | words | request number | changes`.
#[derive(Clone, Copy, Debug, PartialEq, Eq)]
pub struct Case<'sheet> {
    /// What it shows.
    pub name: &'sheet str,
    /// The words that build what is asked about.
    pub words: &'sheet str,
    /// What is asked.
    pub request: &'sheet str,
    /// The number that it must get.
    pub number: u8,
    /// What a done request changes.
    pub changes: &'sheet str,
}

/// The rows of a sheet. A line that begins with `//` or is empty says nothing; one that begins with a space goes on with the line before.
pub fn rows(sheet: &str) -> Result<Vec<Row<'_>>, String> {
    let mut rows = Vec::new();
    let mut rest = sheet;
    while !rest.is_empty() {
        let (line, behind) = rest.split_at(line_end(rest));
        rest = behind;
        let line = line.trim_end();
        if line.is_empty() || line.starts_with("//") {
            continue;
        }
        rows.push(match line.strip_prefix('=') {
            _ if line.starts_with('#') => Row::Remark(line),
            Some(words) => Row::Base(words.trim()),
            None => Row::Case(case(line).ok_or_else(|| format!("not a case: {line}"))?),
        });
    }
    Ok(rows)
}

/// Where a line ends, with those that go on with it.
fn line_end(text: &str) -> usize {
    let ends = text.match_indices('\n').map(|(at, _)| at + 1);
    ends.into_iter().find(|&end| !text[end..].starts_with(' ')).unwrap_or(text.len())
}

fn case(line: &str) -> Option<Case<'_>> {
    let parts: Vec<&str> = line.split('|').map(str::trim).collect();
    let [name, words, asked, changes] = parts[..] else {
        return None;
    };
    let (request, number) = asked.split_once(' ')?;
    Some(Case { name, words, request, number: number.trim().parse().ok()?, changes })
}

/// A word with the numbers behind its colons, as `slot:0:3`.
#[derive(Clone, Copy, Debug, PartialEq, Eq)]
pub struct Word<'sheet> {
    /// The word as it stands.
    pub whole: &'sheet str,
    /// What stands in front of its first colon.
    pub name: &'sheet str,
    /// What stands behind that.
    pub text: &'sheet str,
}

impl<'sheet> Word<'sheet> {
    /// The words of a part of a case.
    pub fn all(words: &'sheet str) -> impl Iterator<Item = Self> {
        words.split_whitespace().map(|whole| {
            let (name, text) = whole.split_once(':').unwrap_or((whole, ""));
            Word { whole, name, text }
        })
    }

    /// The numbers of a word, which must be so many.
    pub fn numbers<const N: usize>(&self) -> Result<[i64; N], String> {
        let numbers: Option<Vec<i64>> = self.text.split(':').filter(|n| !n.is_empty()).map(|n| n.parse().ok()).collect();
        numbers.and_then(|numbers| numbers.try_into().ok()).ok_or_else(|| self.fault())
    }

    /// A number, and how often it is meant: once where that is left out.
    pub fn times(&self) -> Result<(i64, usize), String> {
        match self.numbers::<1>() {
            Ok([n]) => Ok((n, 1)),
            Err(_) => self.numbers().map(|[n, times]| (n, times as usize)),
        }
    }

    /// Bytes in hex.
    pub fn bytes(&self) -> Result<Vec<u8>, String> {
        let digits = expanded(self.text)?;
        let pairs = (0..digits.len()).step_by(2);
        let byte = |at: usize| digits.get(at..at + 2).and_then(|pair| u8::from_str_radix(pair, 16).ok());
        pairs.map(|at| byte(at).ok_or_else(|| self.fault())).collect()
    }

    /// That a word is not understood.
    pub fn fault(&self) -> String {
        format!("not understood: {}", self.whole)
    }
}

/// A text in which `{N*TEXT}` is TEXT so many times.
pub fn expanded(text: &str) -> Result<String, String> {
    let Some((front, rest)) = text.split_once('{') else {
        return Ok(text.to_string());
    };
    let part = rest.split_once('}').and_then(|(inner, behind)| Some((inner.split_once('*')?, behind)));
    let ((times, repeated), behind) = part.ok_or_else(|| format!("not understood: {text}"))?;
    let times = times.parse().map_err(|_| format!("not understood: {text}"))?;
    Ok(front.to_string() + &repeated.repeat(times) + &expanded(behind)?)
}

/// Words as a remark has them, on one line.
pub fn on_one_line(words: &str) -> String {
    words.split_whitespace().collect::<Vec<_>>().join(" ")
}

/// Bytes in hex, as the console has them.
pub fn hex(bytes: &[u8]) -> String {
    bytes.iter().map(|byte| format!("{byte:02x}")).collect()
}
