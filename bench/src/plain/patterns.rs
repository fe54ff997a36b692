//! From pattern texts to an automaton: the positions of the patterns, and the sets of them that can be reached.

/// The most sets.
const MOST_SETS: usize = 512;

/// A set of positions below 256.
#[derive(Clone, Copy, PartialEq, Eq, Default)]
struct Set([u64; 4]);

impl Set {
    fn with(mut self, p: usize) -> Set {
        self.0[p / 64] |= 1 << (p % 64);
        self
    }

    fn has(&self, p: usize) -> bool {
        self.0[p / 64] >> (p % 64) & 1 == 1
    }

    fn union(self, other: &Set) -> Set {
        let mut words = self.0;
        words.iter_mut().zip(other.0).for_each(|(a, b)| *a |= b);
        Set(words)
    }

    fn both(self, other: &Set) -> Set {
        let mut words = self.0;
        words.iter_mut().zip(other.0).for_each(|(a, b)| *a &= b);
        Set(words)
    }

    fn meets(&self, other: &Set) -> bool {
        (0..256).any(|p| self.has(p) && other.has(p))
    }

    fn bucket(&self) -> usize {
        let sum = self.0.iter().fold(0u64, |sum, word| {
            sum.wrapping_add(*word).wrapping_mul(11_400_714_819_323_198_485)
        });
        (sum >> 55) as usize
    }
}

#[derive(Clone, Copy)]
enum Token<'a> {
    Literal(u8),
    Dot,
    Class(&'a [u8]),
    Open,
    Close,
    Bar,
    Star,
    Plus,
    Question,
    Broken,
}

/// The bytes and ranges of a class behind its `[` or `[^`, with the index of its `]`; none if it is broken.
fn items(text: &[u8], mut visit: impl FnMut(u8, u8)) -> Option<usize> {
    let byte = |i: usize| match *text.get(i)? {
        b'\\' => Some((*text.get(i + 1)?, i + 2)),
        b']' | b'^' | b'-' => None,
        b => Some((b, i + 1)),
    };
    let mut i = 0;
    loop {
        if i > 0 && text.get(i) == Some(&b']') {
            return Some(i);
        }
        let (low, next) = byte(i)?;
        let (high, next) = match text.get(next) {
            Some(b'-') => byte(next + 1)?,
            _ => (low, next),
        };
        if low > high {
            return None;
        }
        visit(low, high);
        i = next;
    }
}

/// Whether a class, whose text stands between brackets, has a byte.
fn class_holds(text: &[u8], x: u8) -> bool {
    let (inverted, rest) = match text {
        [b'^', rest @ ..] => (true, rest),
        _ => (false, text),
    };
    let mut i = 0;
    let mut listed = false;
    while i < rest.len() && !listed {
        let mut byte = || {
            i += if rest[i] == b'\\' { 2 } else { 1 };
            rest[i - 1]
        };
        let low = byte();
        let mut high = low;
        if rest.get(i) == Some(&b'-') {
            i += 1;
            i += if rest[i] == b'\\' { 2 } else { 1 };
            high = rest[i - 1];
        }
        listed = (low..=high).contains(&x);
    }
    listed != inverted
}

/// The first token of a text that is not empty, and how many bytes it takes.
fn token(text: &[u8]) -> (Token<'_>, usize) {
    match text {
        [b'\\', b, ..] => (Token::Literal(*b), 2),
        [b'[', rest @ ..] => {
            let sign = usize::from(rest.first() == Some(&b'^'));
            let Some(end) = items(&rest[sign..], |_, _| ()).map(|end| end + sign) else {
                return (Token::Broken, 1);
            };
            let class = &rest[..end];
            match (0..=255).any(|x| class_holds(class, x)) {
                true => (Token::Class(class), end + 2),
                false => (Token::Broken, end + 2),
            }
        }
        [b'.', ..] => (Token::Dot, 1),
        [b'(', ..] => (Token::Open, 1),
        [b')', ..] => (Token::Close, 1),
        [b'|', ..] => (Token::Bar, 1),
        [b'*', ..] => (Token::Star, 1),
        [b'+', ..] => (Token::Plus, 1),
        [b'?', ..] => (Token::Question, 1),
        [b']' | b'\\', ..] => (Token::Broken, 1),
        [b, ..] => (Token::Literal(*b), 1),
        [] => (Token::Broken, 1),
    }
}

fn tokens(text: &[u8]) -> impl Iterator<Item = Token<'_>> {
    let mut rest = text;
    std::iter::from_fn(move || {
        let (first, width) = (!rest.is_empty()).then(|| token(rest))?;
        rest = &rest[width..];
        Some(first)
    })
}

/// Whether a text is no pattern.
fn is_wrong(text: &[u8]) -> bool {
    let (mut depth, mut atom, mut repeat) = (0usize, false, false);
    for token in tokens(text) {
        match token {
            Token::Literal(_) | Token::Dot | Token::Class(_) => (atom, repeat) = (true, false),
            Token::Open => (depth, atom, repeat) = (depth + 1, false, false),
            Token::Star | Token::Plus | Token::Question if atom => (atom, repeat) = (false, true),
            Token::Bar if atom || repeat => (atom, repeat) = (false, false),
            Token::Close if depth > 0 && (atom || repeat) => {
                (depth, atom, repeat) = (depth - 1, true, false)
            }
            _ => return true,
        }
    }
    depth > 0 || !(atom || repeat)
}

/// How many positions a text has, and how deep its parentheses are.
fn measure(text: &[u8]) -> (usize, usize) {
    let atoms = tokens(text)
        .filter(|token| matches!(token, Token::Literal(_) | Token::Dot | Token::Class(_)))
        .count();
    let (mut depth, mut deepest) = (0usize, 0);
    for token in tokens(text) {
        match token {
            Token::Open => depth += 1,
            Token::Close => depth = depth.saturating_sub(1),
            _ => {}
        }
        deepest = deepest.max(depth);
    }
    (atoms, deepest)
}

/// Whether an expression has the empty word, and its first and last positions.
#[derive(Clone, Copy, Default)]
struct Part {
    nullable: bool,
    first: Set,
    last: Set,
}

/// The positions: which follow each, and which each byte reads.
struct Tables {
    count: usize,
    follow: [Set; 256],
    holds: [Set; 256],
}

#[derive(Clone, Copy, Default)]
struct Group {
    branches: Option<Part>,
    pieces: Option<Part>,
    piece: Option<Part>,
}

impl Tables {
    fn link(&mut self, last: &Set, first: &Set) {
        for q in 0..256 {
            if last.has(q) {
                self.follow[q] = self.follow[q].union(first);
            }
        }
    }

    fn atom(&mut self, token: Token<'_>) -> Part {
        let place = self.count;
        for b in 0..=255u8 {
            let reads = match token {
                Token::Literal(c) => b == c,
                Token::Dot => true,
                Token::Class(text) => class_holds(text, b),
                _ => false,
            };
            if reads {
                self.holds[b as usize] = self.holds[b as usize].with(place);
            }
        }
        self.count += 1;
        let only = Set::default().with(place);
        Part { nullable: false, first: only, last: only }
    }

    fn join(&mut self, l: Option<Part>, r: Option<Part>) -> Option<Part> {
        let (Some(l), Some(r)) = (l, r) else {
            return l.or(r);
        };
        self.link(&l.last, &r.first);
        Some(Part {
            nullable: l.nullable && r.nullable,
            first: if l.nullable { l.first.union(&r.first) } else { l.first },
            last: if r.nullable { l.last.union(&r.last) } else { r.last },
        })
    }

    fn whole(&mut self, group: Group) -> Option<Part> {
        let branch = self.join(group.pieces, group.piece);
        let (Some(l), Some(r)) = (group.branches, branch) else {
            return group.branches.or(branch);
        };
        Some(Part {
            nullable: l.nullable || r.nullable,
            first: l.first.union(&r.first),
            last: l.last.union(&r.last),
        })
    }

    fn push(&mut self, group: &mut Group, piece: Option<Part>) {
        if piece.is_some() {
            group.pieces = self.join(group.pieces, group.piece);
            group.piece = piece;
        }
    }

    fn parse(&mut self, text: &[u8]) -> Part {
        let (mut inner, mut around) = (Group::default(), Vec::new());
        for token in tokens(text) {
            match token {
                Token::Literal(_) | Token::Dot | Token::Class(_) => {
                    let part = self.atom(token);
                    self.push(&mut inner, Some(part));
                }
                Token::Open => around.push(std::mem::take(&mut inner)),
                Token::Close => {
                    let piece = self.whole(inner);
                    inner = around.pop().unwrap_or_default();
                    self.push(&mut inner, piece);
                }
                Token::Bar => inner = Group { branches: self.whole(inner), ..Group::default() },
                Token::Star | Token::Plus | Token::Question => {
                    if let Some(piece) = &mut inner.piece {
                        if !matches!(token, Token::Question) {
                            self.link(&piece.last, &piece.first);
                        }
                        piece.nullable |= !matches!(token, Token::Plus);
                    }
                }
                Token::Broken => {}
            }
        }
        self.whole(inner).expect("a pattern")
    }
}

/// The sets in the order in which they were found, and for each bucket its newest set, and for each set the next older one.
struct States {
    sets: Vec<Set>,
    newest: [u16; 512],
    older: [u16; MOST_SETS],
}

impl States {
    fn find(&self, set: &Set) -> Option<usize> {
        let mut next = self.newest[set.bucket()] as usize;
        while next > 0 {
            if self.sets[next - 1] == *set {
                return Some(next - 1);
            }
            next = self.older[next - 1] as usize;
        }
        None
    }

    fn enter(&mut self, set: Set) -> bool {
        if self.find(&set).is_some() {
            return true;
        }
        if self.sets.len() == MOST_SETS {
            return false;
        }
        let newest = &mut self.newest[set.bucket()];
        self.older[self.sets.len()] = *newest;
        *newest = self.sets.len() as u16 + 1;
        self.sets.push(set);
        true
    }
}

/// The positions that may be read next, by some byte.
fn reach(tables: &Tables, first: &Set, set: &Set) -> Set {
    (0..256)
        .filter(|s| set.has(*s))
        .fold(*first, |all, s| all.union(&tables.follow[s]))
}

/// Compiles patterns, each a place and a length: the number of states, or the number of a refusal.
pub fn compile(
    buffer: &[u8],
    places: &[(usize, usize)],
    successors: &mut [u16],
    classes: &mut [u8],
) -> Result<usize, u8> {
    let texts: Option<Vec<&[u8]>> = places
        .iter()
        .map(|&(start, len)| buffer.get(start..start.checked_add(len)?))
        .collect();
    let texts = texts.ok_or(14)?;
    if texts.iter().any(|text| is_wrong(text)) {
        return Err(19);
    }
    let measures: Vec<_> = texts.iter().map(|text| measure(text)).collect();
    let atoms: usize = measures.iter().map(|(atoms, _)| atoms).sum();
    if !(1..=32).contains(&texts.len()) || atoms > 256 || measures.iter().any(|m| m.1 > 32) {
        return Err(20);
    }
    let mut tables = Tables {
        count: 0,
        follow: [Set::default(); 256],
        holds: [Set::default(); 256],
    };
    let parts: Vec<Part> = texts.iter().map(|text| tables.parse(text)).collect();
    let first = parts.iter().fold(Set::default(), |all, part| all.union(&part.first));
    let mut states = States { sets: Vec::new(), newest: [0; 512], older: [0; MOST_SETS] };
    states.enter(Set::default());
    let mut m = 0;
    while m < states.sets.len() {
        let reached = reach(&tables, &first, &states.sets[m]);
        for holds in &tables.holds {
            if !states.enter(reached.both(holds)) {
                return Err(21);
            }
        }
        m += 1;
    }
    let count = states.sets.len();
    if successors.len() < 256 * count || classes.len() < count {
        return Err(3);
    }
    let rows = successors.chunks_exact_mut(256).zip(classes);
    for (set, (row, class)) in states.sets.iter().zip(rows) {
        let reached = reach(&tables, &first, set);
        for (next, holds) in row.iter_mut().zip(&tables.holds) {
            *next = states.find(&reached.both(holds)).expect("found") as u16;
        }
        let ends = |part: &Part| part.nullable || part.last.meets(set);
        *class = parts.iter().position(ends).map_or(0, |i| i as u8 + 1);
    }
    Ok(count)
}
