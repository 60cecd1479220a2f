//! bench verify WHAT FILE..      are the records, keys or items of both sides the same, in both rooms; WHAT is tokens, key or bodies
//! bench time WHAT ROUNDS FILE.. nanoseconds per byte of each side, the best of the rounds, the sides in turn
//! bench growth ROUNDS FILE      nanoseconds per byte of the tokens of 8 KiB to 64 MiB, the file again and again
//! bench short CALLS             nanoseconds of a call on small texts
//! bench once WHAT WHICH FILE    one call and nothing else, for counting instructions; WHICH is rust, kept, room or need
//! A file of bodies has its mode as the first character of its name.
use oq3_lexer::unescape::{unescape_literal, EscapeError, Mode};
use oq3_lexer::{LiteralKind, Token, TokenKind};

#[repr(C)]
#[derive(PartialEq, Debug, Clone, Copy)]
struct Answer {
    number: u32,
    also: u64,
}
extern "C" {
    fn oq3_tokenize(text: *const u8, text_len: usize, profile: u32, list: *mut u32, list_len: usize) -> Answer;
    fn oq3_renewal_key(text: *const u8, text_len: usize, profile: u32, key: *mut u8, key_len: usize) -> Answer;
    fn oq3_unescape_literal(body: *const u8, body_len: usize, mode: u32, list: *mut u32, list_len: usize) -> Answer;
}

// how many words a token and an item have in the port's lists
const WORDS: usize = 5;
const ITEM_WORDS: usize = 3;

// stands for a token's fifth word, its misplaced underscore, of which the crate says nothing
const UNSAID: u32 = 0;

// ---- tokens: the check for UTF-8, and the tokens collected
#[inline(never)]
#[no_mangle]
fn tokens_rust(text: &[u8]) -> Vec<Token> {
    let s = std::str::from_utf8(text).unwrap();
    oq3_lexer::tokenize(s).collect()
}

/// The same into a Vec that is kept from call to call, so that no memory is asked for.
#[inline(never)]
#[no_mangle]
fn tokens_kept(text: &[u8], out: &mut Vec<Token>) {
    out.clear();
    let s = std::str::from_utf8(text).unwrap();
    out.extend(oq3_lexer::tokenize(s));
}

#[inline(never)]
#[no_mangle]
fn tokens_port(text: &[u8], list: &mut [u32]) -> Answer {
    unsafe { oq3_tokenize(text.as_ptr(), text.len(), 0, list.as_mut_ptr(), list.len()) }
}

// ---- the key, written over the crate's tokens
/// The key's byte for a kind, how long its body is, and the suffix start.
fn member(kind: TokenKind) -> (u8, usize, u32) {
    use TokenKind::*;
    let mark = match kind {
        BlockComment { .. } => return (3, 4, 0),
        Ident => return (5, 4, 0),
        HardwareIdent => return (6, 4, 0),
        InvalidIdent => return (7, 4, 0),
        Pragma => return (8, 4, 0),
        Annotation => return (9, 4, 0),
        Dollar => return (24, 4, 0),
        Unknown => return (37, 4, 0),
        Literal { kind, suffix_start } => {
            let n = match kind {
                LiteralKind::Int { base, empty_int } => 40 + 2 * base_place(base) + empty_int as u8,
                LiteralKind::Float { base, empty_exponent } => 48 + 2 * base_place(base) + empty_exponent as u8,
                LiteralKind::Str { terminated } => 56 + terminated as u8,
                LiteralKind::BitStr { terminated, consecutive_underscores } => 58 + terminated as u8 + 2 * consecutive_underscores as u8,
                LiteralKind::Byte { .. } => unreachable!(),
            };
            return (n, 8, suffix_start);
        }
        Semi => 10,
        Comma => 11,
        Dot => 12,
        OpenParen => 13,
        CloseParen => 14,
        OpenBrace => 15,
        CloseBrace => 16,
        OpenBracket => 17,
        CloseBracket => 18,
        At => 19,
        Tilde => 21,
        Question => 22,
        Colon => 23,
        Eq => 25,
        Bang => 26,
        Lt => 27,
        Gt => 28,
        Minus => 29,
        And => 30,
        Or => 31,
        Plus => 32,
        Star => 33,
        Slash => 34,
        Caret => 35,
        Percent => 36,
        _ => unreachable!(),
    };
    (mark, 0, 0)
}

fn base_place(base: oq3_lexer::Base) -> u8 {
    match base {
        oq3_lexer::Base::Binary => 0,
        oq3_lexer::Base::Octal => 1,
        oq3_lexer::Base::Decimal => 2,
        oq3_lexer::Base::Hexadecimal => 3,
    }
}

fn key_into(text: &[u8], out: &mut Vec<u8>) {
    let s = std::str::from_utf8(text).unwrap();
    let mut at = 0;
    for t in oq3_lexer::tokenize(s) {
        let from = at;
        at += t.len as usize;
        if matches!(t.kind, TokenKind::Whitespace | TokenKind::LineComment | TokenKind::BlockComment { terminated: true }) {
            continue;
        }
        let (kind, body, suffix) = member(t.kind);
        out.push(kind);
        if body == 0 {
            continue;
        }
        out.extend_from_slice(&t.len.to_le_bytes());
        if body == 8 {
            out.extend_from_slice(&suffix.to_le_bytes());
        }
        for part in text[from..at].chunks(16) {
            out.push(128 + part.len() as u8);
            out.extend_from_slice(part);
        }
    }
}

#[inline(never)]
#[no_mangle]
fn key_rust(text: &[u8]) -> Vec<u8> {
    let mut out = Vec::with_capacity(4 * text.len());
    key_into(text, &mut out);
    out
}

#[inline(never)]
#[no_mangle]
fn key_kept(text: &[u8], out: &mut Vec<u8>) {
    out.clear();
    key_into(text, out);
}

#[inline(never)]
#[no_mangle]
fn key_port(text: &[u8], key: &mut [u8]) -> Answer {
    unsafe { oq3_renewal_key(text.as_ptr(), text.len(), 0, key.as_mut_ptr(), key.len()) }
}

// ---- bodies of literals: the items collected as start, end and what the crate gives
type Item = (u32, u32, Result<char, EscapeError>);

#[inline(never)]
#[no_mangle]
fn bodies_rust(body: &[u8], mode: Mode) -> Vec<Item> {
    let mut out = Vec::new();
    let s = std::str::from_utf8(body).unwrap();
    unescape_literal(s, mode, &mut |r, x| out.push((r.start as u32, r.end as u32, x)));
    out
}

#[inline(never)]
#[no_mangle]
fn bodies_kept(body: &[u8], mode: Mode, out: &mut Vec<Item>) {
    out.clear();
    let s = std::str::from_utf8(body).unwrap();
    unescape_literal(s, mode, &mut |r, x| out.push((r.start as u32, r.end as u32, x)));
}

#[inline(never)]
#[no_mangle]
fn bodies_port(body: &[u8], mode: u32, list: &mut [u32]) -> Answer {
    unsafe { oq3_unescape_literal(body.as_ptr(), body.len(), mode, list.as_mut_ptr(), list.len()) }
}

/// What is measured, with a text: the need in words or bytes, and each way to make it.
enum What {
    Tokens,
    Key,
    Bodies(u32),
}

fn what(name: &str, file: &str) -> What {
    match name {
        "tokens" => What::Tokens,
        "key" => What::Key,
        "bodies" => What::Bodies(crate::name(file)[..1].parse().unwrap()),
        _ => panic!("tokens, key or bodies"),
    }
}

impl What {
    /// What the port is to write, as words; of a key, its bytes.
    fn want(&self, text: &[u8]) -> Vec<u32> {
        let s = std::str::from_utf8(text).unwrap();
        match self {
            What::Tokens => {
                let mut end = 0;
                let mut words = |t: &(u32, u32, u32)| {
                    let start = end;
                    end += t.1;
                    [t.0, t.1, t.2, start, UNSAID]
                };
                oracle::tokens(s).iter().flat_map(|t| words(t)).collect()
            }
            What::Key => oracle::key_of(text, &oracle::tokens(s), false).iter().map(|&b| b as u32).collect(),
            What::Bodies(mode) => oracle::unescape_items(s, *mode).iter().flat_map(|t| [t.0, t.1, t.2]).collect(),
        }
    }

    /// How many words, or bytes, `also` counts as one.
    fn width(&self) -> usize {
        match self {
            What::Tokens => WORDS,
            What::Key => 1,
            What::Bodies(_) => ITEM_WORDS,
        }
    }

    /// Room in which nothing is counted first.
    fn plenty(&self, text: &[u8]) -> usize {
        match self {
            What::Tokens => WORDS * text.len(),
            What::Key => 11 * text.len(),
            What::Bodies(_) => ITEM_WORDS * (text.len() + 1),
        }
    }
}

/// The lists and keys that are lent or kept.
struct Kept {
    words: Vec<u32>,
    bytes: Vec<u8>,
    tokens: Vec<Token>,
    key: Vec<u8>,
    items: Vec<Item>,
}

impl Kept {
    fn new(w: &What, room: usize) -> Kept {
        let key = matches!(w, What::Key);
        Kept {
            words: vec![0xAAAA_AAAA; if key { 0 } else { room }],
            bytes: vec![0xAA; if key { room } else { 0 }],
            tokens: Vec::new(),
            key: Vec::new(),
            items: Vec::new(),
        }
    }

    fn rust(&mut self, w: &What, text: &[u8]) -> usize {
        match w {
            What::Tokens => tokens_rust(text).len(),
            What::Key => key_rust(text).len(),
            What::Bodies(m) => bodies_rust(text, oracle::mode_of(*m).unwrap()).len(),
        }
    }

    fn kept(&mut self, w: &What, text: &[u8]) -> usize {
        match w {
            What::Tokens => tokens_kept(text, &mut self.tokens),
            What::Key => key_kept(text, &mut self.key),
            What::Bodies(m) => bodies_kept(text, oracle::mode_of(*m).unwrap(), &mut self.items),
        }
        self.tokens.len() + self.key.len() + self.items.len()
    }

    fn port(&mut self, w: &What, text: &[u8]) -> Answer {
        match w {
            What::Tokens => tokens_port(text, &mut self.words),
            What::Key => key_port(text, &mut self.bytes),
            What::Bodies(m) => bodies_port(text, *m, &mut self.words),
        }
    }
}

/// The processor time of this thread, in seconds: what other programs take does not count.
fn now() -> f64 {
    #[repr(C)]
    struct Timespec {
        seconds: i64,
        nanoseconds: i64,
    }
    extern "C" {
        fn clock_gettime(clock: i32, time: *mut Timespec) -> i32;
    }
    const CLOCK_THREAD_CPUTIME_ID: i32 = 3;
    let mut t = Timespec { seconds: 0, nanoseconds: 0 };
    unsafe { clock_gettime(CLOCK_THREAD_CPUTIME_ID, &mut t) };
    t.seconds as f64 + t.nanoseconds as f64 * 1e-9
}

fn timed<F: FnMut() -> usize>(f: &mut F) -> f64 {
    let t = now();
    let n = f();
    let d = now() - t;
    std::hint::black_box(n);
    d
}

fn name(f: &str) -> &str {
    f.rsplit('/').next().unwrap()
}

/// A token's fifth word is not compared, but where it names a place there is an underscore.
fn unsay(text: &[u8], words: &mut [u32]) {
    for record in words.chunks_mut(WORDS) {
        assert!(record[4] == 0 || text[(record[3] + record[4]) as usize] == b'_');
        record[4] = UNSAID;
    }
}

/// Both sides give what the crate gives, in both rooms, and nothing behind it is written.
fn verify(w: &What, f: &str, text: &[u8]) {
    let want = w.want(text);
    let key = matches!(w, What::Key);
    let count = want.len() / w.width();
    for room in [w.plenty(text), want.len()] {
        let mut k = Kept::new(w, room);
        assert_eq!(k.port(w, text), Answer { number: 0, also: count as u64 });
        let mut got: Vec<u32> = if key { k.bytes.iter().map(|&b| b as u32).collect() } else { k.words };
        if matches!(w, What::Tokens) {
            unsay(text, &mut got[..want.len()]);
        }
        assert!(got[..want.len()] == want[..], "{f}: what is written differs");
        assert!(got[want.len()..].iter().all(|&x| x == if key { 0xAA } else { 0xAAAA_AAAA }), "{f}: written behind the end");
    }
    if key {
        assert!(key_rust(text).iter().map(|&b| b as u32).eq(want.iter().copied()), "{f}: the Rust's key differs");
    }
    println!("{}: {} bytes, {} records or key bytes, the same on both sides and in both rooms", name(f), text.len(), count);
}

/// The best of each side, rust, kept, room and need, in seconds for one call; and how often room and need go into rust, the middle of the
/// rounds, which a busy machine moves less than the best.
fn measure(w: &What, text: &[u8], rounds: usize, calls: usize) -> [f64; 6] {
    let need = w.want(text).len();
    let (mut wide, mut tight) = (Kept::new(w, w.plenty(text)), Kept::new(w, need));
    wide.kept(w, text);
    let mut best = [f64::MAX; 4];
    let mut ratios = [Vec::new(), Vec::new()];
    for _ in 0..rounds {
        let t = std::hint::black_box(text);
        let d = [
            timed(&mut || (0..calls).map(|_| wide.rust(w, t)).sum()),
            timed(&mut || (0..calls).map(|_| wide.port(w, t).also as usize).sum()),
            timed(&mut || (0..calls).map(|_| tight.port(w, t).also as usize).sum()),
            timed(&mut || (0..calls).map(|_| wide.kept(w, t)).sum()),
        ];
        for (b, x) in best.iter_mut().zip([d[0], d[3], d[1], d[2]]) {
            *b = b.min(x / calls as f64);
        }
        ratios[0].push(d[0] / d[1]);
        ratios[1].push(d[0] / d[2]);
    }
    let [room, need] = ratios.map(|mut r| {
        r.sort_by(f64::total_cmp);
        r[r.len() / 2]
    });
    [best[0], best[1], best[2], best[3], room, need]
}

fn head(first: &str) {
    println!("{:14} {:>8} {:>8} {:>8} {:>8} {:>9} {:>9}", first, "rust", "kept", "room", "need", "rust/room", "rust/need");
}

fn row(first: &str, b: [f64; 6], per: f64) {
    println!("{:14} {:8.3} {:8.3} {:8.3} {:8.3} {:9.2} {:9.2}", first, b[0] * per, b[1] * per, b[2] * per, b[3] * per, b[4], b[5]);
}

/// The first `size` bytes of the file again and again, down to a whole character.
fn grown(file: &[u8], size: usize) -> Vec<u8> {
    let mut text: Vec<u8> = file.iter().copied().cycle().take(size).collect();
    if let Err(e) = std::str::from_utf8(&text) {
        text.truncate(e.valid_up_to());
    }
    text
}

fn main() {
    assert_eq!(oracle::PROFILE, 0);
    let a: Vec<String> = std::env::args().collect();
    match a[1].as_str() {
        "verify" => {
            for f in &a[3..] {
                verify(&what(&a[2], f), f, &std::fs::read(f).unwrap());
            }
        }
        "time" => {
            head("ns/B");
            for f in &a[4..] {
                let text = std::fs::read(f).unwrap();
                row(name(f), measure(&what(&a[2], f), &text, a[3].parse().unwrap(), 1), 1e9 / text.len() as f64);
            }
        }
        "growth" => {
            let file = std::fs::read(&a[3]).unwrap();
            head("ns/B");
            for size in [8 << 10, 64 << 10, 512 << 10, 4 << 20, 32 << 20, 64 << 20] {
                let text = grown(&file, size);
                let calls = ((1 << 20) / size).max(1);
                row(&format!("{} KiB", size >> 10), measure(&What::Tokens, &text, a[2].parse().unwrap(), calls), 1e9 / text.len() as f64);
            }
        }
        "short" => {
            // one small text again and again: what a call costs by itself
            let calls: usize = a[2].parse().unwrap();
            head("ns/call");
            for text in ["x q;", "h q[0]; cx q", "rz(pi/4) q[3]; // turn\nmeasure q -> c;\n", "\u{3b8} = 2\u{b5}s;"] {
                row(&format!("{} bytes", text.len()), measure(&What::Tokens, text.as_bytes(), 20, calls), 1e9);
            }
        }
        "once" => {
            let text = std::fs::read(&a[4]).unwrap();
            let w = what(&a[2], &a[4]);
            let mut k = Kept::new(&w, if a[3] == "need" { w.want(&text).len() } else { w.plenty(&text) });
            match a[3].as_str() {
                "rust" => println!("{}", k.rust(&w, &text)),
                "kept" => {
                    k.tokens.reserve(text.len());
                    k.key.reserve(11 * text.len());
                    k.items.reserve(text.len());
                    println!("{}", k.kept(&w, &text));
                }
                _ => println!("{:?}", k.port(&w, &text)),
            }
        }
        _ => panic!("verify, time, growth, short or once"),
    }
}
