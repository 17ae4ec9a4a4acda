//! One router's lane: the frame walk and the tables.
use crate::table::{Table, Want};
use crate::text::{Addr, Out, PeerKey, Query, Select, VIEWS};
use crate::wire::*;
use std::collections::HashMap;
use std::io::Read;
use std::sync::Arc;

pub enum Cause {
    Ended,
    Terminated,
    CutShort(u64),
    Broken(u64, &'static str),
    ReadFault(u64),
}

impl Cause {
    pub fn put(&self, out: &mut Out) {
        out.raw(b"stop ");
        match self {
            Cause::Ended => out.raw(b"ended"),
            Cause::Terminated => out.raw(b"terminated"),
            Cause::CutShort(n) => {
                out.raw(b"cutshort ");
                out.num(*n);
            }
            Cause::Broken(n, why) => {
                out.raw(b"broken ");
                out.num(*n);
                out.byte(b' ');
                out.raw(why.as_bytes());
            }
            Cause::ReadFault(n) => {
                out.raw(b"readfault ");
                out.num(*n);
            }
        }
        out.line();
    }
    pub fn status(&self) -> u8 {
        match self {
            Cause::Ended | Cause::Terminated => 0,
            Cause::CutShort(_) | Cause::Broken(..) => 1,
            Cause::ReadFault(_) => 3,
        }
    }
}

/// Reads to the end and hands each whole frame to `frame`, which answers whether its body is right;
/// `batch` is called after each read's frames.
pub fn walk<R: Read>(
    from: &mut R,
    chunk: usize,
    mut frame: impl FnMut(u8, &[u8]) -> bool,
    mut batch: impl FnMut(),
) -> Cause {
    let mut buf = vec![0u8; 2 * chunk];
    let (mut end, mut offset) = (0usize, 0u64);
    loop {
        if buf.len() - end < chunk {
            buf.resize((buf.len() * 2).max(end + chunk), 0);
        }
        let n = match from.read(&mut buf[end..end + chunk]) {
            Ok(0) => return if end == 0 { Cause::Ended } else { Cause::CutShort(offset) },
            Ok(n) => n,
            Err(e) if e.kind() == std::io::ErrorKind::Interrupted => continue,
            Err(_) => return Cause::ReadFault(offset + end as u64),
        };
        end += n;
        let mut at = 0;
        while end - at >= 6 {
            let b = &buf[at..end];
            if b[0] != 3 {
                return Cause::Broken(offset, "version");
            }
            let len = be32(&b[1..]) as usize;
            if !(6..=1 << 20).contains(&len) {
                return Cause::Broken(offset, "length");
            }
            if b.len() < len {
                break;
            }
            if !frame(b[5], &b[6..len]) {
                return Cause::Broken(offset, "body");
            }
            at += len;
            offset += len as u64;
            if b[5] == 5 {
                return Cause::Terminated;
            }
        }
        batch();
        if at > 0 {
            buf.copy_within(at..end, 0);
            end -= at;
        }
    }
}

#[derive(Clone, Copy, PartialEq, Eq, PartialOrd, Ord)]
pub struct Stat {
    pub code: u16,
    pub afi: u16,
    pub safi: u8,
    pub value: u64,
}

pub struct UpInfo {
    asn: u32,
    identifier: [u8; 4],
    local: Addr,
    ports: [u16; 2],
    filtered: bool,
    table: Option<Vec<u8>>,
}

pub enum State {
    Up(UpInfo),
    Down(u8, Detail),
}

pub enum Detail {
    Notified(u8, u8),
    Event(u16),
    Unread,
}

pub struct Peer {
    key: PeerKey,
    state: State,
    /// Which families use path identifiers: inward, outward, and of a Loc-RIB.
    ids: [[bool; 2]; 3],
    marks: [[bool; 2]; 5],
    stats: Vec<Stat>,
    tables: [[Option<Box<Table>>; 2]; 5],
}

#[derive(Default)]
pub struct Lane {
    pub keep_rows: bool,
    pub messages: u64,
    pub bytes: u64,
    orphans: u64,
    unread: u64,
    mirrored: u64,
    passed: u64,
    name: Vec<u8>,
    descr: Vec<u8>,
    peers: Vec<Peer>,
    places: HashMap<PeerKey, usize>,
    last: usize,
}

const STATS: [&[u8]; 18] = [
    b"rejected-by-policy",
    b"duplicate-announcements",
    b"duplicate-withdrawals",
    b"cluster-list-loop",
    b"as-path-loop",
    b"originator-id-loop",
    b"confed-loop",
    b"adj-rib-in",
    b"loc-rib",
    b"adj-rib-in-family",
    b"loc-rib-family",
    b"updates-as-withdraw",
    b"prefixes-as-withdraw",
    b"duplicate-updates",
    b"adj-rib-out-pre",
    b"adj-rib-out-post",
    b"adj-rib-out-pre-family",
    b"adj-rib-out-post-family",
];

fn stat_width(code: usize) -> usize {
    match code {
        0..=6 | 11..=13 => 4,
        7 | 8 | 14 | 15 => 8,
        9 | 10 | 16 | 17 => 11,
        _ => usize::MAX,
    }
}

fn place(b: &[u8], v6: bool) -> Addr {
    if v6 { Addr::v6(b[..16].try_into().unwrap()) } else { Addr::v4(b[12..16].try_into().unwrap()) }
}

impl Lane {
    pub fn new(keep_rows: bool) -> Lane {
        Lane { keep_rows, ..Lane::default() }
    }

    fn find(&mut self, key: &PeerKey) -> Option<usize> {
        if let Some(p) = self.peers.get(self.last)
            && p.key == *key
        {
            return Some(self.last);
        }
        let i = *self.places.get(key)?;
        self.last = i;
        Some(i)
    }

    /// Takes one frame; answers whether its body is in the grammar.
    pub fn frame(&mut self, kind: u8, body: &[u8]) -> bool {
        if self.entry(kind, body).is_none() {
            return false;
        }
        self.messages += 1;
        self.bytes += body.len() as u64 + 6;
        true
    }

    fn entry(&mut self, kind: u8, body: &[u8]) -> Option<()> {
        match kind {
            4 => {
                let (mut name, mut descr, mut unread) = (None, None, 0);
                tlvs(body, |t, v| match t {
                    0 => (),
                    1 => descr = Some(v),
                    2 => name = Some(v),
                    _ => unread += 1,
                })?;
                if let Some(v) = name {
                    self.name = v.to_vec();
                }
                if let Some(v) = descr {
                    self.descr = v.to_vec();
                }
                self.unread += unread;
                return Some(());
            }
            5 => return tlvs(body, |_, _| ()),
            0..=3 | 6 => (),
            _ => {
                self.passed += 1;
                return Some(());
            }
        }
        if body.len() < 42 {
            return None;
        }
        let (head, rest) = body.split_at(42);
        let (peer, flags) = (head[0], head[1]);
        if peer > 3 {
            self.passed += 1;
            return Some(());
        }
        let loc = peer == 3;
        let v6 = flags & 0x80 != 0 && !loc;
        let key = PeerKey {
            kind: peer,
            dist: u64::from_be_bytes(head[2..10].try_into().unwrap()),
            addr: place(&head[10..26], v6),
        };
        match kind {
            0 => {
                let Some(i) = self.find(&key).filter(|i| matches!(self.peers[*i].state, State::Up(_))) else {
                    self.orphans += 1;
                    return Some(());
                };
                let view = if loc { 4 } else { (flags >> 6 & 1 | flags >> 3 & 2) as usize };
                self.monitor(i, view, loc || flags & 0x20 == 0, bgp_whole(rest, 2)?)
            }
            1 => self.statistics(&key, rest),
            2 => {
                let (&reason, data) = rest.split_first()?;
                let detail = match reason {
                    1 | 3 => match bgp_whole(data, 3) {
                        Some([code, sub, ..]) => Detail::Notified(*code, *sub),
                        _ => Detail::Unread,
                    },
                    2 if data.len() == 2 => Detail::Event(be16(data) as u16),
                    _ => Detail::Unread,
                };
                self.set(key, State::Down(reason, detail), [[false; 2]; 3]);
                Some(())
            }
            3 => self.up(key, head, rest, v6),
            _ => {
                let mut unread = 0;
                tlvs(rest, |t, v| match t {
                    0 => (),
                    1 if v.len() == 2 => (),
                    _ => unread += 1,
                })?;
                self.mirrored += 1;
                self.unread += unread;
                Some(())
            }
        }
    }

    fn set(&mut self, key: PeerKey, state: State, ids: [[bool; 2]; 3]) {
        let peer = Peer { key, state, ids, marks: Default::default(), stats: Vec::new(), tables: Default::default() };
        match self.find(&key) {
            Some(i) => self.peers[i] = peer,
            None => {
                self.places.insert(key, self.peers.len());
                self.peers.push(peer);
            }
        }
    }

    fn up(&mut self, key: PeerKey, head: &[u8], rest: &[u8], v6: bool) -> Option<()> {
        if rest.len() < 20 {
            return None;
        }
        let (fixed, rest) = rest.split_at(20);
        let one = |b: &[u8]| match bgp(b) {
            Some((1, n)) => Some((open(&b[19..n])?, n)),
            _ => None,
        };
        let (sent, n) = one(rest)?;
        let (received, m) = one(&rest[n..])?;
        let (mut unread, mut table) = (0, None);
        let loc = key.kind == 3;
        tlvs(&rest[n + m..], |t, v| match t {
            0 => (),
            3 if loc => table = Some(v.to_vec()),
            _ => unread += 1,
        })?;
        let mut ids = [[false; 2]; 3];
        for f in 0..2 {
            ids[0][f] = sent.receive[f] && received.send[f];
            ids[1][f] = sent.send[f] && received.receive[f];
            ids[2][f] = sent.any[f];
        }
        let info = UpInfo {
            asn: be32(&head[26..]),
            identifier: head[30..34].try_into().unwrap(),
            local: place(&fixed[..16], v6),
            ports: [be16(&fixed[16..]) as u16, be16(&fixed[18..]) as u16],
            filtered: loc && head[1] & 0x80 != 0,
            table,
        };
        self.set(key, State::Up(info), ids);
        self.unread += unread;
        Some(())
    }

    fn statistics(&mut self, key: &PeerKey, rest: &[u8]) -> Option<()> {
        let Some(i) = self.find(key).filter(|i| matches!(self.peers[*i].state, State::Up(_))) else {
            self.orphans += 1;
            return Some(());
        };
        if rest.len() < 4 {
            return None;
        }
        let (mut n, mut unread, mut stats) = (0u32, 0, Vec::new());
        tlvs(&rest[4..], |t, v| {
            n = n.wrapping_add(1);
            if v.len() != stat_width(t) {
                unread += 1;
                return;
            }
            let (afi, safi, v) = if v.len() == 11 { (be16(v) as u16, v[2], &v[3..]) } else { (0, 0, v) };
            let value = v.iter().fold(0, |x, b| x << 8 | *b as u64);
            stats.push(Stat { code: t as u16, afi, safi, value });
        })?;
        if n != be32(rest) {
            return None;
        }
        let kept = &mut self.peers[i].stats;
        for s in stats {
            match kept.binary_search_by_key(&(s.code, s.afi, s.safi), |k| (k.code, k.afi, k.safi)) {
                Ok(at) => kept[at] = s,
                Err(at) => kept.insert(at, s),
            }
        }
        self.unread += unread;
        Some(())
    }

    fn monitor(&mut self, i: usize, view: usize, wide: bool, body: &[u8]) -> Option<()> {
        if body.len() < 4 {
            return None;
        }
        let n = be16(body);
        let rest = body.get(2 + n..)?;
        let withdrawn = &body[2..2 + n];
        if rest.len() < 2 {
            return None;
        }
        let m = be16(rest);
        let nlri = rest.get(2 + m..)?;
        let raw = attributes(&rest[2..2 + m], wide)?;
        let peer = &mut self.peers[i];
        let ids = peer.ids[[0, 0, 1, 1, 2][view]];
        // The four places: withdrawn, unreach, NLRI, reach, each with its family.
        let mut places = [Some((0, withdrawn)), None, Some((0, nlri)), None];
        let mut unread = 0;
        if let Some((afi, safi, p)) = raw.unreach {
            places[1] = family(afi, safi).map(|f| (f, p));
            unread += places[1].is_none() as u64;
        }
        let mut reach_hop: &[u8] = &[];
        if let Some((afi, safi, hop, p)) = raw.reach {
            places[3] = family(afi, safi).map(|f| (f, p));
            unread += places[3].is_none() as u64;
            reach_hop = hop;
        }
        for (f, b) in places.iter().flatten() {
            match &peer.tables[view][*f] {
                Some(t) if self.keep_rows => {
                    prefixes(b, *f == 1, ids[*f], |left, bits, id| t.soon(left, bits, id))?;
                }
                _ => prefixes(b, *f == 1, ids[*f], |_, _, _| ())?,
            }
        }
        self.unread += unread;
        if withdrawn.is_empty() && nlri.is_empty() {
            match (raw.count, places[1]) {
                (0, _) => peer.marks[view][0] = true,
                (1, Some((f, []))) if raw.unreach.is_some_and(|u| u.2.is_empty()) => peer.marks[view][f] = true,
                _ => (),
            }
        }
        if !self.keep_rows {
            return Some(());
        }
        for (f, b) in places[..2].iter().flatten() {
            if let Some(t) = &mut peer.tables[view][*f] {
                let _ = prefixes(b, *f == 1, ids[*f], |left, bits, id| t.remove(left, bits, id));
            }
        }
        for (place, hop) in [(places[2], raw.hop), (places[3], Some(reach_hop))] {
            let Some((f, b)) = place.filter(|p| !p.1.is_empty()) else { continue };
            let attrs = Arc::new(Attrs::of(&raw, hop));
            let t = peer.tables[view][f].get_or_insert_with(|| Box::new(Table::new(f == 1, ids[f])));
            let _ = prefixes(b, f == 1, ids[f], |left, bits, id| t.insert(left, bits, id, &attrs));
        }
        Some(())
    }
}

// ---------------------------------------------------------------- replies

fn head(word: &[u8], lane: usize, out: &mut Out) {
    out.raw(word);
    out.num(lane as u64);
}

fn chosen<'a>(lane: usize, peers: &[&'a Peer], s: &Select) -> Vec<&'a Peer> {
    if s.router.is_some_and(|r| r as usize != lane) {
        return Vec::new();
    }
    peers.iter().copied().filter(|p| s.peer.is_none_or(|k| p.key == k)).collect()
}

/// Writes the reply over the lanes, each with its opening as an entry.
pub fn answer(lanes: &[Lane], q: &Query, out: &mut Out) {
    out.raw(b"at ");
    out.num(lanes.iter().map(|l| l.messages + 1).sum());
    out.line();
    let mut rows = 0u64;
    let mut count = 0u64;
    for (n, lane) in lanes.iter().enumerate() {
        let mut peers: Vec<&Peer> = lane.peers.iter().collect();
        peers.sort_by_key(|p| p.key);
        let is_up = |p: &Peer| matches!(p.state, State::Up(_));
        match q {
            Query::Routers => {
                rows += 1;
                head(b"router ", n, out);
                let up = peers.iter().filter(|p| is_up(p)).count() as u64;
                for (word, x) in [
                    (&b" live peers="[..], up),
                    (b" messages=", lane.messages),
                    (b" bytes=", lane.bytes),
                    (b" orphans=", lane.orphans),
                    (b" unread=", lane.unread),
                    (b" mirrored=", lane.mirrored),
                    (b" passed=", lane.passed),
                ] {
                    out.raw(word);
                    out.num(x);
                }
                out.raw(b" name=");
                out.escaped(&lane.name);
                out.raw(b" descr=");
                out.escaped(&lane.descr);
                out.line();
            }
            Query::Cut => {
                rows += 1;
                head(b"lane ", n, out);
                out.byte(b' ');
                out.num(lane.messages + 1);
                out.line();
            }
            Query::Peers(s) => {
                for p in chosen(n, &peers, s) {
                    rows += 1;
                    head(b"peer ", n, out);
                    out.byte(b' ');
                    out.key(&p.key);
                    put_peer(p, out);
                    out.line();
                }
            }
            Query::Stats(k) => {
                for p in peers.iter().filter(|p| p.key == *k) {
                    for s in &p.stats {
                        rows += 1;
                        head(b"stat ", n, out);
                        out.byte(b' ');
                        out.key(k);
                        out.byte(b' ');
                        out.num(s.code as u64);
                        out.byte(b' ');
                        out.raw(STATS[s.code as usize]);
                        if stat_width(s.code as usize) == 11 {
                            out.byte(b' ');
                            out.num(s.afi as u64);
                            out.byte(b'/');
                            out.num(s.safi as u64);
                        }
                        out.byte(b' ');
                        out.num(s.value);
                        out.line();
                    }
                }
            }
            Query::Marks(s) | Query::Table(s) | Query::Count(s) | Query::Exact(_, s) | Query::Longest(_, s)
            | Query::Within(_, s) | Query::Origin(_, s) => {
                for p in chosen(n, &peers, s) {
                    if !is_up(p) {
                        continue;
                    }
                    let views = if p.key.kind == 3 { 4..5 } else { 0..4 };
                    for view in views.filter(|v| s.view.is_none_or(|w| w == *v)) {
                        for f in (0..2).filter(|f| s.v6.is_none_or(|w| w as usize == *f)) {
                            if let Query::Marks(_) = q {
                                rows += 1;
                                head(b"mark ", n, out);
                                out.byte(b' ');
                                out.key(&p.key);
                                out.byte(b' ');
                                out.raw(VIEWS[view]);
                                out.raw(if f == 0 { b" 4 " } else { b" 6 " });
                                out.raw(if p.marks[view][f] { b"complete" } else { b"waiting" });
                                out.line();
                                continue;
                            }
                            let Some(t) = &p.tables[view][f] else { continue };
                            if let Query::Count(_) = q {
                                count += t.len() as u64;
                                continue;
                            }
                            let want = match q {
                                Query::Exact(p, _) => Want::Exact(*p),
                                Query::Longest(a, _) => Want::Longest(a.v6, a.left()),
                                Query::Within(p, _) => Want::Within(*p),
                                Query::Origin(n, _) => Want::Origin(*n),
                                _ => Want::All,
                            };
                            let mut line = Out::null();
                            head(b"route ", n, &mut line);
                            line.byte(b' ');
                            line.key(&p.key);
                            line.byte(b' ');
                            line.raw(VIEWS[view]);
                            line.byte(b' ');
                            rows += t.put(&want, line.taken(), out);
                        }
                    }
                }
            }
            Query::Quit => (),
        }
    }
    if let Query::Count(_) = q {
        rows = 1;
        out.raw(b"count ");
        out.num(count);
        out.line();
    }
    out.raw(b"end ");
    out.num(rows);
    out.line();
}

fn put_peer(p: &Peer, out: &mut Out) {
    match &p.state {
        State::Up(u) => {
            out.raw(b" up asn=");
            out.num(u.asn as u64);
            out.raw(b" id=");
            out.ipv4(&u.identifier);
            out.raw(b" local=");
            out.addr(&u.local);
            out.raw(b" ports=");
            out.num(u.ports[0] as u64);
            out.byte(b',');
            out.num(u.ports[1] as u64);
            if p.key.kind == 3 {
                out.raw(if u.filtered { b" filtered=yes table=" } else { b" filtered=no table=" });
                match &u.table {
                    None => out.byte(b'-'),
                    Some(t) => out.escaped(t),
                }
            }
        }
        State::Down(reason, detail) => {
            out.raw(b" down ");
            out.num(*reason as u64);
            out.byte(b' ');
            out.raw(match reason {
                1 => b"local-notification",
                2 => b"local-event",
                3 => b"remote-notification",
                4 => b"remote-silent",
                5 => b"unmonitored",
                6 => b"local-closed",
                _ => b"other",
            });
            match detail {
                Detail::Notified(c, s) => {
                    out.raw(b" notification=");
                    out.num(*c as u64);
                    out.byte(b'/');
                    out.num(*s as u64);
                }
                Detail::Event(e) => {
                    out.raw(b" event=");
                    out.num(*e as u64);
                }
                Detail::Unread => out.raw(b" -"),
            }
        }
    }
}
