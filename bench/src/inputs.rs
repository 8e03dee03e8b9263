//! Trees and commits of fixed shapes.

/// A small generator of numbers, the same at each run.
pub struct Dice(u64);

impl Dice {
    pub fn new(seed: u64) -> Dice {
        Dice(seed.wrapping_mul(0x9e3779b97f4a7c15) | 1)
    }
    pub fn next(&mut self) -> u64 {
        self.0 ^= self.0 << 13;
        self.0 ^= self.0 >> 7;
        self.0 ^= self.0 << 17;
        self.0
    }
    fn letter(&mut self) -> u8 {
        b'a' + (self.next() % 26) as u8
    }
}

/// Name `i` of `len` bytes: a quarter the same for all, four letters that count up, then any letters.
pub fn name(i: usize, len: usize, dice: &mut Dice) -> Vec<u8> {
    let mut name = vec![b'n'; len / 4];
    name.extend([17576, 676, 26, 1].map(|unit| b'a' + (i / unit % 26) as u8));
    while name.len() < len {
        name.push(dice.letter());
    }
    name
}

/// Modes: of eight entries six are 100644, one is 40000, one is 100755.
pub fn mode(i: usize) -> &'static [u8] {
    match i % 8 {
        3 => b"40000",
        6 => b"100755",
        _ => b"100644",
    }
}

/// The names of a tree of `n` entries and the object.
pub fn tree(n: usize, len: usize) -> (Vec<Vec<u8>>, Vec<u8>) {
    let mut dice = Dice::new((n * 1000 + len) as u64);
    let (mut names, mut object) = (Vec::new(), Vec::new());
    for i in 0..n {
        let name = name(i, len, &mut dice);
        object.extend_from_slice(mode(i));
        object.push(b' ');
        object.extend_from_slice(&name);
        object.push(0);
        object.extend((0..20).map(|_| dice.next() as u8));
        names.push(name);
    }
    (names, object)
}

/// A commit with so many parents, lines of a folded signature and bytes of message.
pub fn commit(parents: usize, lines: usize, message: usize) -> Vec<u8> {
    let mut dice = Dice::new((parents * 100 + lines) as u64 * 10_000 + message as u64);
    let mut text = String::new();
    let id = |dice: &mut Dice| -> String { (0..40).map(|_| char::from_digit((dice.next() % 16) as u32, 16).unwrap()).collect() };
    text += &format!("tree {}\n", id(&mut dice));
    for _ in 0..parents {
        text += &format!("parent {}\n", id(&mut dice));
    }
    text += "author Ada Lovelace <ada.lovelace@example.org> 1700000000 +0100\n";
    text += "committer Charles Babbage <charles@example.org> 1700000123 -0530\n";
    if lines > 0 {
        text += "gpgsig -----BEGIN PGP SIGNATURE-----\n";
        for _ in 0..lines {
            let line: String = (0..64).map(|_| dice.letter() as char).collect();
            text += &format!(" {line}\n");
        }
        text += " -----END PGP SIGNATURE-----\n";
    }
    text += "\n";
    for k in 0..message {
        text.push(if k % 7 == 6 { ' ' } else { dice.letter() as char });
    }
    text.into_bytes()
}
