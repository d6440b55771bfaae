//! Damage to a text's bytes.

use second::random::Random;

/// A way to damage a text.
type Damage = fn(&mut Vec<u8>, &mut Random);

/// Every way; some stand twice to come more often.
const WAYS: [Damage; 12] = [
    cut,
    cut,
    insert,
    insert,
    change,
    change,
    remove,
    past_the_letters,
    line_ends,
    append,
    count,
    lines_swapped,
];

/// Bytes that a careless reader may take: near the digits of either case, digits but for bit 5, other line ends, 00.
const NEAR: [u8; 22] = [
    0x00, 0x0A, 0x0D, 0x09, 0x10, 0x19, 0x20, b'/', b'0', b'9', b':', b'@', b'A', b'F', b'G', b'`',
    b'a', b'f', b'g', 0x7F, 0x80, 0xFF,
];

/// A text with one damage, at times two.
pub fn damage(text: &[u8], random: &mut Random) -> Vec<u8> {
    let mut damaged = text.to_vec();
    for _ in 0..random.one_of(&[1, 1, 1, 2]) {
        random.one_of(&WAYS)(&mut damaged, random);
    }
    damaged
}

/// A place in a text, or at its end; the first line, the second and the last come more often.
fn place(text: &[u8], random: &mut Random) -> usize {
    let near = random.below(30);
    let choices = [
        near,
        near,
        text.len().saturating_sub(near),
        random.below(text.len() + 1),
    ];
    random.one_of(&choices).min(text.len())
}

/// Ends the text early.
fn cut(text: &mut Vec<u8>, random: &mut Random) {
    let length = place(text, random);
    text.truncate(length);
}

/// Puts a byte in.
fn insert(text: &mut Vec<u8>, random: &mut Random) {
    let at = place(text, random);
    text.insert(at, random.one_of(&NEAR));
}

/// Changes a byte.
fn change(text: &mut Vec<u8>, random: &mut Random) {
    let at = place(text, random);
    if let Some(byte) = text.get_mut(at) {
        *byte = random.one_of(&NEAR);
    }
}

/// Takes a byte out.
fn remove(text: &mut Vec<u8>, random: &mut Random) {
    let at = place(text, random);
    if at < text.len() {
        text.remove(at);
    }
}

/// Exchanges one letter for the byte before A or behind F, of its case.
fn past_the_letters(text: &mut Vec<u8>, random: &mut Random) {
    let letters: Vec<usize> = (0..text.len())
        .filter(|&at| text[at].is_ascii_alphabetic())
        .collect();
    if !letters.is_empty() {
        let letter = &mut text[random.one_of(&letters)];
        *letter = *letter & 0x20 | random.one_of(&[b'@', b'G']);
    }
}

/// Ends one line, or all, by 0D, 0D 0A or 0A 0A.
fn line_ends(text: &mut Vec<u8>, random: &mut Random) {
    let other: &[u8] = random.one_of(&[&[0x0D], &[0x0D, 0x0A], &[0x0A, 0x0A]]);
    let ends: Vec<usize> = (0..text.len()).filter(|&at| text[at] == 0x0A).collect();
    if ends.is_empty() {
        return;
    }
    let chosen = random.one_of(&ends);
    let all = random.once_in(4);
    let written = |at: usize| {
        if text[at] == 0x0A && (all || at == chosen) {
            other.to_vec()
        } else {
            vec![text[at]]
        }
    };
    *text = (0..text.len()).flat_map(written).collect();
}

/// Puts bytes behind the last line: one, a few, or a whole line more.
fn append(text: &mut Vec<u8>, random: &mut Random) {
    let line = b"02000001000002000002\n";
    let length = random.one_of(&[1, 1, 2, line.len()]);
    let from = random.one_of(&[0, line.len() - length]);
    text.extend(&line[from..from + length]);
}

/// Announces another row count, near the true one or far.
fn count(text: &mut Vec<u8>, random: &mut Random) {
    if text.len() < 6 {
        return;
    }
    let rows = (text.len() - 6) / 21;
    let announced = random.one_of(&[rows + 1, rows.saturating_sub(1), 0, 64, 65, 255]);
    text[4..6].copy_from_slice(format!("{:02X}", announced & 0xFF).as_bytes());
}

/// Changes places of two lines.
fn lines_swapped(text: &mut Vec<u8>, random: &mut Random) {
    let mut lines: Vec<&[u8]> = text.split_inclusive(|&byte| byte == 0x0A).collect();
    if lines.len() > 1 {
        let (one, other) = (random.below(lines.len()), random.below(lines.len()));
        lines.swap(one, other);
        *text = lines.concat();
    }
}
