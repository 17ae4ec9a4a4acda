//! Addresses, peer keys, queries: the texts, both ways, and the output buffer.
use std::fs::File;
use std::io::Write;

#[derive(Clone, Copy, PartialEq, Eq, PartialOrd, Ord, Hash, Debug)]
pub struct Addr {
    pub v6: bool,
    pub bytes: [u8; 16],
}

impl Addr {
    pub fn v4(b: [u8; 4]) -> Addr {
        let mut bytes = [0; 16];
        bytes[..4].copy_from_slice(&b);
        Addr { v6: false, bytes }
    }
    pub fn v6(bytes: [u8; 16]) -> Addr {
        Addr { v6: true, bytes }
    }
    /// The address as a number whose top bit is the first bit of the address.
    pub fn left(&self) -> u128 {
        u128::from_be_bytes(self.bytes)
    }
    pub fn max_bits(&self) -> u8 {
        if self.v6 { 128 } else { 32 }
    }
}

pub fn mask(bits: u8) -> u128 {
    if bits == 0 { 0 } else { u128::MAX << (128 - bits as u32) }
}

#[derive(Clone, Copy, PartialEq, Eq, Debug)]
pub struct Prefix {
    pub v6: bool,
    pub left: u128,
    pub bits: u8,
}

#[derive(Clone, Copy, PartialEq, Eq, PartialOrd, Ord, Hash, Debug)]
pub struct PeerKey {
    pub kind: u8,
    pub dist: u64,
    pub addr: Addr,
}

pub const VIEWS: [&[u8]; 5] = [b"adj-in-pre", b"adj-in-post", b"adj-out-pre", b"adj-out-post", b"loc"];

// ---------------------------------------------------------------- output

pub struct Out {
    buf: Vec<u8>,
    to: Option<File>,
    pub failed: bool,
}

const FLUSH: usize = 1 << 17;

impl Out {
    pub fn stdout() -> Out {
        use std::os::fd::FromRawFd;
        // SAFETY: descriptor 1 is the process's own standard output and is closed by nobody else.
        Out { buf: Vec::with_capacity(FLUSH + 8192), to: Some(unsafe { File::from_raw_fd(1) }), failed: false }
    }
    pub fn null() -> Out {
        Out { buf: Vec::with_capacity(4096), to: None, failed: false }
    }
    #[inline]
    pub fn raw(&mut self, b: &[u8]) {
        self.buf.extend_from_slice(b);
    }
    #[inline]
    pub fn byte(&mut self, b: u8) {
        self.buf.push(b);
    }
    /// Ends a line, and hands the buffer on where it is full.
    #[inline]
    pub fn line(&mut self) {
        self.buf.push(b'\n');
        if self.buf.len() >= FLUSH {
            self.flush();
        }
    }
    #[cold]
    pub fn flush(&mut self) {
        if let Some(f) = &mut self.to
            && !self.failed
            && f.write_all(&self.buf).is_err()
        {
            self.failed = true;
        }
        self.buf.clear();
    }
    #[inline]
    pub fn num(&mut self, mut x: u64) {
        let mut t = [0u8; 20];
        let mut i = 20;
        while x >= 100 {
            let d = (x % 100) as usize * 2;
            x /= 100;
            i -= 2;
            t[i..i + 2].copy_from_slice(&PAIRS[d..d + 2]);
        }
        if x >= 10 {
            let d = x as usize * 2;
            i -= 2;
            t[i..i + 2].copy_from_slice(&PAIRS[d..d + 2]);
        } else {
            i -= 1;
            t[i] = b'0' + x as u8;
        }
        self.buf.extend_from_slice(&t[i..]);
    }
    #[inline]
    pub fn ipv4(&mut self, b: &[u8]) {
        self.num(b[0] as u64);
        self.byte(b'.');
        self.num(b[1] as u64);
        self.byte(b'.');
        self.num(b[2] as u64);
        self.byte(b'.');
        self.num(b[3] as u64);
    }
    pub fn ipv6(&mut self, b: &[u8]) {
        let mut g = [0u16; 8];
        for (i, c) in b.chunks_exact(2).enumerate() {
            g[i] = u16::from_be_bytes([c[0], c[1]]);
        }
        let (mut best, mut blen) = (8, 1);
        let mut i = 0;
        while i < 8 {
            if g[i] != 0 {
                i += 1;
                continue;
            }
            let s = i;
            while i < 8 && g[i] == 0 {
                i += 1;
            }
            if i - s > blen {
                (best, blen) = (s, i - s);
            }
        }
        let mut i = 0;
        while i < 8 {
            if i == best {
                self.raw(b"::");
                i += blen;
                continue;
            }
            if i > 0 && i != best + blen || i > 0 && best == 8 {
                self.byte(b':');
            }
            self.hex16(g[i]);
            i += 1;
        }
    }
    fn hex16(&mut self, g: u16) {
        let mut started = false;
        for s in [12, 8, 4, 0] {
            let d = (g >> s & 15) as usize;
            started |= d != 0 || s == 0;
            if started {
                self.byte(HEX[d]);
            }
        }
    }
    pub fn addr(&mut self, a: &Addr) {
        if a.v6 { self.ipv6(&a.bytes) } else { self.ipv4(&a.bytes[..4]) }
    }
    pub fn key(&mut self, k: &PeerKey) {
        self.num(k.kind as u64);
        self.byte(b'-');
        for b in k.dist.to_be_bytes() {
            self.hex8(b);
        }
        self.byte(b'-');
        self.addr(&k.addr);
    }
    pub fn hex8(&mut self, b: u8) {
        self.byte(HEX[(b >> 4) as usize]);
        self.byte(HEX[(b & 15) as usize]);
    }
    pub fn escaped(&mut self, s: &[u8]) {
        for &b in s {
            if (0x21..=0x7e).contains(&b) && b != b'%' {
                self.byte(b);
            } else {
                self.byte(b'%');
                self.byte(b"0123456789ABCDEF"[(b >> 4) as usize]);
                self.byte(b"0123456789ABCDEF"[(b & 15) as usize]);
            }
        }
    }
    pub fn taken(&self) -> &[u8] {
        &self.buf
    }
}

const HEX: &[u8; 16] = b"0123456789abcdef";
const PAIRS: &[u8; 200] = b"0001020304050607080910111213141516171819202122232425262728293031323334353637383940414243444546474849\
5051525354555657585960616263646566676869707172737475767778798081828384858687888990919293949596979899";

// ---------------------------------------------------------------- reading texts

pub fn number(t: &[u8]) -> Option<u32> {
    if t.is_empty() || t.len() > 10 || (t[0] == b'0' && t.len() > 1) {
        return None;
    }
    let mut x = 0u64;
    for &c in t {
        if !c.is_ascii_digit() {
            return None;
        }
        x = x * 10 + (c - b'0') as u64;
    }
    u32::try_from(x).ok()
}

pub fn addr(t: &[u8]) -> Option<Addr> {
    if t.contains(&b':') { addr6(t) } else { addr4(t) }
}

fn addr4(t: &[u8]) -> Option<Addr> {
    let mut b = [0u8; 4];
    let mut n = 0;
    for part in t.split(|&c| c == b'.') {
        if n == 4 {
            return None;
        }
        b[n] = u8::try_from(number(part)?).ok()?;
        n += 1;
    }
    (n == 4).then(|| Addr::v4(b))
}

fn groups(t: &[u8]) -> Option<Vec<u16>> {
    if t.is_empty() {
        return Some(Vec::new());
    }
    t.split(|&c| c == b':')
        .map(|g| {
            if g.is_empty() || g.len() > 4 {
                return None;
            }
            g.iter().try_fold(0u16, |x, &c| Some(x << 4 | (c as char).to_digit(16)? as u16))
        })
        .collect()
}

fn addr6(t: &[u8]) -> Option<Addr> {
    let at = t.windows(2).position(|w| w == b"::");
    let (mut g, tail) = match at {
        None => (groups(t)?, Vec::new()),
        Some(i) => (groups(&t[..i])?, groups(&t[i + 2..])?),
    };
    if at.is_none() {
        if g.len() != 8 {
            return None;
        }
    } else {
        if g.len() + tail.len() > 7 {
            return None;
        }
        g.resize(8 - tail.len(), 0);
        g.extend(tail);
    }
    let mut b = [0u8; 16];
    for (i, x) in g.iter().enumerate() {
        b[2 * i..2 * i + 2].copy_from_slice(&x.to_be_bytes());
    }
    Some(Addr::v6(b))
}

pub fn prefix(t: &[u8]) -> Option<Prefix> {
    let i = t.iter().position(|&c| c == b'/')?;
    let a = addr(&t[..i])?;
    let bits = number(&t[i + 1..])?;
    if bits > a.max_bits() as u32 {
        return None;
    }
    Some(Prefix { v6: a.v6, left: a.left() & mask(bits as u8), bits: bits as u8 })
}

pub fn key(t: &[u8]) -> Option<PeerKey> {
    let i = t.iter().position(|&c| c == b'-')?;
    let kind = u8::try_from(number(&t[..i])?).ok()?;
    let r = &t[i + 1..];
    if r.len() < 17 || r[16] != b'-' {
        return None;
    }
    let mut dist = 0u64;
    for &c in &r[..16] {
        let d = match c {
            b'0'..=b'9' => c - b'0',
            b'a'..=b'f' => c - b'a' + 10,
            _ => return None,
        };
        dist = dist << 4 | d as u64;
    }
    Some(PeerKey { kind, dist, addr: addr(&r[17..])? })
}

// ---------------------------------------------------------------- queries

#[derive(Clone, Copy, Default, Debug)]
pub struct Select {
    pub router: Option<u32>,
    pub peer: Option<PeerKey>,
    pub view: Option<usize>,
    pub v6: Option<bool>,
}

#[derive(Clone, Copy, Debug)]
pub enum Query {
    Routers,
    Cut,
    Peers(Select),
    Marks(Select),
    Table(Select),
    Count(Select),
    Exact(Prefix, Select),
    Longest(Addr, Select),
    Within(Prefix, Select),
    Origin(u32, Select),
    Stats(PeerKey),
    Quit,
}

pub fn query(line: &[u8]) -> Option<Query> {
    let words: Vec<&[u8]> = line.split(|&c| c == b' ').collect();
    let (&head, mut rest) = words.split_first()?;
    let mut arg = None;
    if let b"prefix" | b"match" | b"within" | b"origin" | b"stats" = head {
        let (&a, r) = rest.split_first()?;
        arg = Some(a);
        rest = r;
    }
    let mut s = Select::default();
    let mut place = 0;
    let (all, some) = match head {
        b"marks" | b"table" | b"count" | b"prefix" | b"match" | b"within" | b"origin" => (true, true),
        b"peers" => (false, true),
        _ => (false, false),
    };
    while let [name, value, r @ ..] = rest {
        let at = match *name {
            b"router" if some => {
                s.router = Some(number(value)?);
                1
            }
            b"peer" if some => {
                s.peer = Some(key(value)?);
                2
            }
            b"view" if all => {
                s.view = Some(VIEWS.iter().position(|v| v == value)?);
                3
            }
            b"family" if all => {
                s.v6 = Some(match *value {
                    b"4" => false,
                    b"6" => true,
                    _ => return None,
                });
                4
            }
            _ => return None,
        };
        if at <= place {
            return None;
        }
        place = at;
        rest = r;
    }
    if !rest.is_empty() {
        return None;
    }
    Some(match head {
        b"routers" => Query::Routers,
        b"cut" => Query::Cut,
        b"peers" => Query::Peers(s),
        b"marks" => Query::Marks(s),
        b"table" => Query::Table(s),
        b"count" => Query::Count(s),
        b"prefix" => Query::Exact(prefix(arg?)?, s),
        b"match" => Query::Longest(addr(arg?)?, s),
        b"within" => Query::Within(prefix(arg?)?, s),
        b"origin" => Query::Origin(number(arg?)?, s),
        b"stats" => Query::Stats(key(arg?)?),
        b"quit" => Query::Quit,
        _ => return None,
    })
}
