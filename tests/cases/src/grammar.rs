//! Lines of the console as they stand, whatever they say.

use crate::script::Script;
use crate::sheet::expanded;

/// Puts a sheet's lines into the script, but for those that begin with `//`: how many they are, remarks not counted.
pub fn put(script: &mut Script, sheet: &str) -> Result<usize, String> {
    let mut count = 0;
    let mut whole = String::new();
    for line in sheet.lines().filter(|line| !line.starts_with("//")) {
        let line = if whole.is_empty() { line } else { line.trim_start() };
        if let Some(front) = line.strip_suffix('\\') {
            whole += front;
            continue;
        }
        script.ask(&expanded(&(whole + line))?);
        whole = String::new();
        count += usize::from(!line.starts_with("# "));
    }
    Ok(count)
}
