//! Bytes that came from outside, as text of a page. They stay text whatever they are: `<`, `>`, `&` and quotes become references, and what has no shape of
//! its own or turns the shape of others (control characters, bytes that are no UTF-8, marks of writing direction) is written out as in Rust.

/// As many signs of one piece of foreign text are shown.
const SHOWN: usize = 240;

/// Bytes as text of a page or as the value of a quoted attribute; of very long ones the beginning and their number.
pub fn bytes(bytes: &[u8]) -> String {
    let mut signs = bytes.utf8_chunks().flat_map(|chunk| {
        let others = chunk.invalid().iter().map(|byte| format!("\\x{byte:02x}"));
        chunk.valid().chars().map(sign).chain(others)
    });
    let mut page: String = signs.by_ref().take(SHOWN).collect();
    if signs.next().is_some() {
        page.push_str(&format!("… ({} bytes)", bytes.len()));
    }
    page
}

/// The same of text that is shown whole.
pub fn text(text: &str) -> String {
    text.chars().map(sign).collect()
}

fn sign(character: char) -> String {
    match character {
        '&' => "&amp;".to_string(),
        '<' => "&lt;".to_string(),
        '>' => "&gt;".to_string(),
        '"' => "&quot;".to_string(),
        '\'' => "&#39;".to_string(),
        _ if shapeless(character) => character.escape_default().collect(),
        _ => character.to_string(),
    }
}

/// Control characters, those that Unicode keeps for no use (`..FFFE`, `..FFFF` and FDD0 to FDEF, which no page may hold), separators of lines, and what
/// turns the writing direction.
fn shapeless(character: char) -> bool {
    let code = u32::from(character);
    let turns = matches!(code, 0x061c | 0x200e | 0x200f | 0x2028..=0x202e | 0x2066..=0x2069 | 0xfeff);
    character.is_control() || turns || code & 0xfffe == 0xfffe || (0xfdd0..=0xfdef).contains(&code)
}
