//! One instruction, from words to bytes: the forms of document 01's table.

/// The bytes of an instruction; `find` gives the place of a label.
pub fn encode(instruction: &str, find: &impl Fn(&str) -> Option<u16>) -> Result<Vec<u8>, String> {
    let words: Vec<&str> = instruction.split_whitespace().map(|word| word.trim_end_matches(',')).collect();
    let place = |word: &str| find(word).map(u16::to_be_bytes).ok_or_else(|| format!("no place {word}"));
    Ok(match words[..] {
        ["cst", value] => [&[0x01][..], &number::<i32>(value)?.to_be_bytes()].concat(),
        ["access", n] => vec![0x02, number(n)?],
        ["store"] => vec![0x03],
        ["add"] => vec![0x04],
        ["mul"] => vec![0x05],
        ["leq"] => vec![0x06],
        ["put", c] => vec![0x10, number(c)?],
        ["get", c] => vec![0x11, number(c)?],
        ["split", c, a, b] => vec![0x12, number(c)?, number(a)?, number(b)?],
        ["fork", c, a, m, p, b, n, q] => {
            let ([p0, p1], [q0, q1]) = (place(p)?, place(q)?);
            vec![0x13, number(c)?, number(a)?, set(m)?, p0, p1, number(b)?, set(n)?, q0, q1]
        }
        ["plug", a, m, p, n, q] => {
            let ([p0, p1], [q0, q1]) = (place(p)?, place(q)?);
            vec![0x14, number(a)?, set(m)?, p0, p1, set(n)?, q0, q1]
        }
        ["close", c] => vec![0x15, number(c)?],
        ["halt", c] => vec![0x16, number(c)?],
        ["same", c, d] => vec![0x17, number(c)?, number(d)?],
        ["hput", c, n] => vec![0x18, number(c)?, number(n)?],
        ["hcase", c, ref places @ ..] => {
            let mut bytes = vec![0x19, number(c)?, count(places)?];
            for word in places {
                bytes.extend(place(word)?);
            }
            bytes
        }
        ["run", p, n, ref slots @ ..] => {
            let [p0, p1] = place(p)?;
            let mut bytes = vec![0x1A, p0, p1, number(n)?, count(slots)?];
            for slot in slots {
                bytes.push(number(slot)?);
            }
            bytes
        }
        _ => return Err(format!("no instruction: {instruction}")),
    })
}

fn number<T: std::str::FromStr>(word: &str) -> Result<T, String> {
    word.parse().map_err(|_| format!("not such a number: {word}"))
}

/// How many words are listed, as the code says it in a byte.
fn count(listed: &[&str]) -> Result<u8, String> {
    u8::try_from(listed.len()).map_err(|_| "too many are listed".to_string())
}

/// A set of slots, as `{0,2}`.
fn set(word: &str) -> Result<u8, String> {
    let wrong = || format!("not a set of slots: {word}");
    let listed = word.strip_prefix('{').and_then(|rest| rest.strip_suffix('}')).ok_or_else(wrong)?;
    listed.split(',').filter(|slot| !slot.is_empty()).try_fold(0u8, |set, slot| {
        let bit = slot.parse().ok().and_then(|slot| 1u8.checked_shl(slot)).ok_or_else(wrong)?;
        Ok(set | bit)
    })
}
