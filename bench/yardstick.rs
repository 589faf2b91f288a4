//! Makes the NSEC or NSEC3 chain of a zone in plain Rust. `bench/measure` compares `denial` to it.
//!
//!     yardstick nsec APEX                              < RECORDS
//!     yardstick nsec3 APEX ITERATIONS SALT [optout]    < RECORDS
//!
//! It reads the lines of `docs/reference/program.md` and prints the octets that `denial` prints. It
//! reads A, NS, SOA and MX in presentation format, and all other types in the generic form of RFC
//! 3597.
//! It is written for speed:
//!
//! - One buffer holds the octets of all owners, keys and data, so that no record allocates.
//! - Each owner has a key. The order of keys as octets is the canonical order of names.
//! - Lines in a row with the same owner are one run. Runs are sorted by eight octets of the key at
//!   a time, and records within one owner only.
//! - One buffer collects the output.

use std::io::{self, BufRead, BufReader, Read, Write};
use std::ops::Range;
use std::process::ExitCode;

const USAGE: &str = "usage: yardstick nsec APEX | yardstick nsec3 APEX ITERATIONS SALT [optout]";
const BUFFER: usize = 1 << 17;

const A: u16 = 1;
const NS: u16 = 2;
const SOA: u16 = 6;
const MX: u16 = 15;
const DS: u16 = 43;
const RRSIG: u16 = 46;
const NSEC: u16 = 47;
const DNSKEY: u16 = 48;
const NSEC3PARAM: u16 = 51;

/// Numbers with names, and the prefix of all numbers without a name.
struct Mnemonics {
    names: &'static [(u16, &'static str)],
    prefix: &'static str,
}

/// The types. Those that zones have most of come first.
#[rustfmt::skip]
const TYPES: Mnemonics = Mnemonics {
    names: &[
        (1, "A"), (2, "NS"), (43, "DS"), (28, "AAAA"), (15, "MX"), (16, "TXT"), (12, "PTR"),
        (5, "CNAME"), (33, "SRV"), (6, "SOA"), (46, "RRSIG"), (47, "NSEC"), (48, "DNSKEY"),
        (51, "NSEC3PARAM"), (13, "HINFO"), (44, "SSHFP"), (52, "TLSA"), (65, "HTTPS"), (64, "SVCB"),
        (257, "CAA"), (35, "NAPTR"), (39, "DNAME"), (50, "NSEC3"), (59, "CDS"), (60, "CDNSKEY"),
        (62, "CSYNC"), (63, "ZONEMD"), (99, "SPF"),
    ],
    prefix: "TYPE",
};

const CLASSES: Mnemonics = Mnemonics { names: &[(1, "IN"), (3, "CH"), (4, "HS")], prefix: "CLASS" };

impl Mnemonics {
    fn scan(&self, token: &[u8]) -> Option<u16> {
        let is_named = |(_, name): &&(u16, &str)| token.eq_ignore_ascii_case(name.as_bytes());
        if let Some((number, _)) = self.names.iter().find(is_named) {
            return Some(*number);
        }
        let (prefix, digits) = token.split_at_checked(self.prefix.len())?;
        if !prefix.eq_ignore_ascii_case(self.prefix.as_bytes()) {
            return None;
        }
        scan_number(digits)?.try_into().ok()
    }

    fn print(&self, out: &mut Vec<u8>, number: u16) {
        match self.names.iter().find(|(named, _)| *named == number) {
            Some((_, name)) => out.extend_from_slice(name.as_bytes()),
            None => {
                out.extend_from_slice(self.prefix.as_bytes());
                print_number(out, number.into());
            }
        }
    }
}

fn scan_number(token: &[u8]) -> Option<u32> {
    if token.is_empty() {
        return None;
    }
    token.iter().try_fold(0u32, |number, octet| {
        let digit = octet.wrapping_sub(b'0');
        if digit > 9 { None } else { number.checked_mul(10)?.checked_add(digit.into()) }
    })
}

fn print_number(out: &mut Vec<u8>, mut number: u32) {
    let mut digits = [0; 10];
    let mut start = digits.len();
    loop {
        start -= 1;
        digits[start] = b'0' + (number % 10) as u8;
        number /= 10;
        if number == 0 {
            break;
        }
    }
    out.extend_from_slice(&digits[start..]);
}

/// Says which octets are in a name in presentation format as they are.
const IS_PLAIN: [bool; 256] = {
    let mut is_plain = [false; 256];
    let mut octet = 0x21;
    while octet <= 0x7e {
        is_plain[octet] = !is_escaped(octet as u8);
        octet += 1;
    }
    is_plain
};

/// Says whether a backslash precedes a printable octet.
const fn is_escaped(octet: u8) -> bool {
    matches!(octet, b'.' | b'\\' | b';' | b'"' | b'(' | b')' | b'@' | b'$')
}

/// A name in wire form.
struct Name {
    octets: [u8; 255],
    len: usize,
}

impl Name {
    fn new() -> Self {
        Name { octets: [0; 255], len: 0 }
    }

    fn as_wire(&self) -> &[u8] {
        &self.octets[..self.len]
    }

    /// Reads a name in presentation format. The last dot may be missing.
    fn scan(&mut self, token: &[u8]) -> Option<()> {
        let (mut label, mut end, mut at) = (0, 1, 0);
        if token == b"." {
            at = 1;
        } else if token.is_empty() {
            return None;
        }
        while at < token.len() {
            while at < token.len() && end < 254 && IS_PLAIN[token[at] as usize] {
                self.octets[end] = token[at];
                end += 1;
                at += 1;
            }
            match token.get(at) {
                None => break,
                Some(b'.') => {
                    self.octets[label] = label_len(label, end)?;
                    (label, end, at) = (end, end + 1, at + 1);
                }
                Some(_) if end == 255 => return None,
                Some(_) => {
                    *self.octets[..254].get_mut(end)? = scan_octet(token, &mut at)?;
                    end += 1;
                }
            }
        }
        if end - label > 1 {
            self.octets[label] = label_len(label, end)?;
            label = end;
        }
        self.octets[label] = 0;
        self.len = label + 1;
        Some(())
    }
}

/// Returns the length of a label, unless it is empty or too long.
fn label_len(label: usize, end: usize) -> Option<u8> {
    let len = end - label - 1;
    if len == 0 || len > 63 { None } else { Some(len as u8) }
}

/// Reads an octet of a label that is escaped, or is not plain.
fn scan_octet(token: &[u8], at: &mut usize) -> Option<u8> {
    let mut octet = token[*at];
    *at += 1;
    if octet == b'\\' {
        octet = *token.get(*at)?;
        if octet.is_ascii_digit() {
            let digits = token.get(*at..*at + 3)?;
            *at += 3;
            return scan_number(digits)?.try_into().ok();
        }
        *at += 1;
    }
    if (0x20..=0x7e).contains(&octet) { Some(octet) } else { None }
}

/// Appends the key of a name: its labels from the root outwards in lower case, each ended by 0.
///
/// Octets 0 and 1 of a label become 1 1 and 1 2. A name is at or below another exactly if its key
/// begins with the other's key.
fn push_key(key: &mut Vec<u8>, wire: &[u8]) {
    let mut labels = [0u8; 128];
    let (mut count, mut at) = (0, 0);
    while wire[at] != 0 {
        labels[count] = at as u8;
        count += 1;
        at += 1 + wire[at] as usize;
    }
    for &at in labels[..count].iter().rev() {
        let start = at as usize + 1;
        let label = &wire[start..start + wire[at as usize] as usize];
        if label.iter().all(|octet| *octet > 1) {
            let from = key.len();
            key.extend_from_slice(label);
            key[from..].make_ascii_lowercase();
        } else {
            for octet in label {
                match octet.to_ascii_lowercase() {
                    octet @ 0..=1 => key.extend_from_slice(&[1, octet + 1]),
                    octet => key.push(octet),
                }
            }
        }
        key.push(0);
    }
}

/// Prints a name in presentation format, with the last dot.
fn print_name(out: &mut Vec<u8>, wire: &[u8]) {
    if wire[0] == 0 {
        out.push(b'.');
    }
    let mut at = 0;
    while wire[at] != 0 {
        let end = at + 1 + wire[at] as usize;
        let label = &wire[at + 1..end];
        if label.iter().all(|octet| IS_PLAIN[*octet as usize]) {
            out.extend_from_slice(label);
        } else {
            label.iter().for_each(|octet| print_octet(out, *octet));
        }
        out.push(b'.');
        at = end;
    }
}

fn print_octet(out: &mut Vec<u8>, octet: u8) {
    match octet {
        _ if is_escaped(octet) => out.extend_from_slice(&[b'\\', octet]),
        0x21..=0x7e => out.push(octet),
        _ => {
            let digits = [octet / 100, octet / 10 % 10, octet % 10].map(|digit| b'0' + digit);
            out.push(b'\\');
            out.extend_from_slice(&digits);
        }
    }
}

/// The tokens of a line, between spaces and tabs.
struct Tokens<'a>(&'a [u8]);

impl<'a> Iterator for Tokens<'a> {
    type Item = &'a [u8];

    #[inline]
    fn next(&mut self) -> Option<&'a [u8]> {
        let mut rest = self.0;
        while let [b' ' | b'\t', tail @ ..] = rest {
            rest = tail;
        }
        let mut len = 0;
        while len < rest.len() && !matches!(rest[len], b' ' | b'\t') {
            len += 1;
        }
        let (token, rest) = rest.split_at(len);
        self.0 = rest;
        if token.is_empty() { None } else { Some(token) }
    }
}

/// Appends the canonical octets of data. `name` is room for a name.
fn scan_data(out: &mut Vec<u8>, rtype: u16, tokens: &mut Tokens, name: &mut Name) -> Option<()> {
    let first = tokens.next()?;
    match rtype {
        A => scan_address(out, first)?,
        NS => push_name(out, Some(first), name)?,
        MX => {
            let preference: u16 = scan_number(first)?.try_into().ok()?;
            out.extend_from_slice(&preference.to_be_bytes());
            push_name(out, tokens.next(), name)?;
        }
        SOA => {
            push_name(out, Some(first), name)?;
            push_name(out, tokens.next(), name)?;
            for _ in 0..5 {
                out.extend_from_slice(&scan_number(tokens.next()?)?.to_be_bytes());
            }
        }
        _ if first == b"\\#" => scan_generic(out, tokens)?,
        _ => return None,
    }
    if tokens.next().is_some() { None } else { Some(()) }
}

/// Appends a name within data, in lower case.
fn push_name(out: &mut Vec<u8>, token: Option<&[u8]>, name: &mut Name) -> Option<()> {
    name.scan(token?)?;
    let from = out.len();
    out.extend_from_slice(name.as_wire());
    out[from..].make_ascii_lowercase();
    Some(())
}

fn scan_address(out: &mut Vec<u8>, token: &[u8]) -> Option<()> {
    let mut parts = token.split(|octet| *octet == b'.');
    for _ in 0..4 {
        let part = parts.next()?;
        if part.len() > 1 && part[0] == b'0' {
            return None;
        }
        out.push(scan_number(part)?.try_into().ok()?);
    }
    if parts.next().is_some() { None } else { Some(()) }
}

/// The values of hexadecimal digits, and 255 for all other octets.
const NIBBLES: [u8; 256] = {
    let mut nibbles = [0xff; 256];
    let mut nibble = 0;
    while nibble < 16 {
        nibbles[b"0123456789abcdef"[nibble] as usize] = nibble as u8;
        nibbles[b"0123456789ABCDEF"[nibble] as usize] = nibble as u8;
        nibble += 1;
    }
    nibbles
};

fn nibble(digit: u8) -> Option<u8> {
    Some(NIBBLES[digit as usize]).filter(|nibble| *nibble < 16)
}

/// Appends data in generic form: a length, and digits in any number of tokens.
fn scan_generic(out: &mut Vec<u8>, tokens: &mut Tokens) -> Option<()> {
    let len: u16 = scan_number(tokens.next()?)?.try_into().ok()?;
    let start = out.len();
    let mut high = None; // the first digit of an octet, at the end of a token
    for mut digits in tokens {
        if let Some(high) = high.take() {
            out.push(high << 4 | nibble(digits[0])?);
            digits = &digits[1..];
        }
        high = scan_digits(out, digits)?;
    }
    if high.is_none() && out.len() - start == len as usize { Some(()) } else { None }
}

/// Appends the octets of digits, and returns the digit that is left over.
fn scan_digits(out: &mut Vec<u8>, digits: &[u8]) -> Option<Option<u8>> {
    let pairs = digits.chunks_exact(2);
    let rest = pairs.remainder();
    let mut all = 0;
    out.extend(pairs.map(|pair| {
        let (high, low) = (NIBBLES[pair[0] as usize], NIBBLES[pair[1] as usize]);
        all |= high | low;
        high << 4 | low
    }));
    match rest {
        _ if all > 15 => None,
        [digit] => Some(Some(nibble(*digit)?)),
        _ => Some(None),
    }
}

/// A record. At `data` in the zone's octets are the length of its data, of two octets, and the data
/// in canonical form.
#[derive(Clone, Copy)]
struct Record {
    data: u32,
    ttl: u32,
    rtype: u16,
}

impl Record {
    fn data<'a>(&self, octets: &'a [u8]) -> &'a [u8] {
        let at = self.data as usize;
        &octets[at + 2..at + 2 + u16::from_le_bytes([octets[at], octets[at + 1]]) as usize]
    }
}

/// The records `from..to` of one owner: lines in a row, and after `Zone::sort` all of the owner.
///
/// At `owner` in the zone's octets are the length of the name, the length of the key in two octets,
/// the name in wire form, and the key without that of the apex. Runs are sorted by `chunk`, eight
/// octets of the key.
#[derive(Clone, Copy)]
struct Run {
    chunk: u64,
    owner: u32,
    from: u32,
    to: u32,
}

impl Run {
    fn wire<'a>(&self, octets: &'a [u8]) -> &'a [u8] {
        let at = self.owner as usize;
        &octets[at + 3..at + 3 + octets[at] as usize]
    }

    fn key<'a>(&self, octets: &'a [u8]) -> &'a [u8] {
        let at = self.owner as usize;
        let start = at + 3 + octets[at] as usize;
        &octets[start..start + u16::from_le_bytes([octets[at + 1], octets[at + 2]]) as usize]
    }
}

/// Returns eight octets of a key as a number, with zeros after its end.
fn chunk(key: &[u8], depth: usize) -> u64 {
    let rest = key.get(depth..).unwrap_or(&[]);
    if let Some(first) = rest.first_chunk() {
        return u64::from_be_bytes(*first);
    }
    let mut octets = [0; 8];
    octets[..rest.len()].copy_from_slice(rest);
    u64::from_be_bytes(octets)
}

/// The records at or below the apex.
struct Zone {
    octets: Vec<u8>,
    records: Vec<Record>,
    runs: Vec<Run>,
    class: u16,
}

/// A zone that is being read, with what the last line leaves for the next one.
struct Reader {
    zone: Zone,
    apex_key: Vec<u8>,
    owner: Vec<u8>, // in presentation format
    is_inside: bool,
    class: Option<u16>,
    is_mixed: bool,
    name: Name,
    key: Vec<u8>,
}

impl Reader {
    fn new(apex: &[u8]) -> Self {
        let mut apex_key = Vec::new();
        push_key(&mut apex_key, apex);
        let zone = Zone { octets: Vec::new(), records: Vec::new(), runs: Vec::new(), class: 1 };
        Reader {
            zone,
            apex_key,
            owner: Vec::new(),
            is_inside: false,
            class: None,
            is_mixed: false,
            name: Name::new(),
            key: Vec::new(),
        }
    }

    /// Reads all lines.
    fn read(mut self, input: impl Read) -> Result<Zone, String> {
        let mut input = BufReader::with_capacity(BUFFER, input);
        let mut line = Vec::new();
        for number in 1.. {
            line.clear();
            if input.read_until(b'\n', &mut line).map_err(|_| "cannot read input")? == 0 {
                break;
            }
            self.add(without_end(&line)).ok_or_else(|| format!("line {number}: bad record"))?;
            if self.zone.octets.len() > u32::MAX as usize - BUFFER {
                return Err("out of memory".into());
            }
        }
        if self.is_mixed {
            return Err("more than one class".into());
        }
        self.zone.class = self.class.unwrap_or(1);
        Ok(self.zone)
    }

    /// Adds the record of a line, if it has one.
    fn add(&mut self, line: &[u8]) -> Option<()> {
        let mut tokens = Tokens(line);
        let owner = match tokens.next() {
            None | Some([b';', ..]) => return Some(()),
            Some(owner) => owner,
        };
        if owner != self.owner {
            self.start_run(owner)?;
        }
        let ttl = scan_number(tokens.next()?)?;
        let class = CLASSES.scan(tokens.next()?)?;
        let rtype = TYPES.scan(tokens.next()?)?;
        self.is_mixed |= *self.class.get_or_insert(class) != class;

        let octets = &mut self.zone.octets;
        let start = octets.len();
        octets.extend_from_slice(&[0, 0]);
        scan_data(octets, rtype, &mut tokens, &mut self.name)?;
        let len = octets.len() - start - 2;
        octets[start..start + 2].copy_from_slice(&(len as u16).to_le_bytes());
        match self.zone.runs.last_mut() {
            Some(run) if self.is_inside => {
                self.zone.records.push(Record { data: start as u32, ttl, rtype });
                run.to += 1;
            }
            _ => octets.truncate(start),
        }
        Some(())
    }

    /// Reads an owner that the line before does not have, and starts a run if it is in the zone.
    fn start_run(&mut self, owner: &[u8]) -> Option<()> {
        self.name.scan(owner)?;
        self.key.clear();
        push_key(&mut self.key, self.name.as_wire());
        self.is_inside = self.key.starts_with(&self.apex_key);
        if self.is_inside {
            let key = &self.key[self.apex_key.len()..];
            let (octets, at) = (&mut self.zone.octets, self.zone.records.len() as u32);
            let run = Run { chunk: chunk(key, 0), owner: octets.len() as u32, from: at, to: at };
            self.zone.runs.push(run);
            octets.push(self.name.len as u8);
            octets.extend_from_slice(&(key.len() as u16).to_le_bytes());
            octets.extend_from_slice(self.name.as_wire());
            octets.extend_from_slice(key);
        }
        self.owner.clear();
        self.owner.extend_from_slice(owner);
        Some(())
    }
}

/// Returns a line without LF or CRLF at its end.
fn without_end(line: &[u8]) -> &[u8] {
    match line {
        [line @ .., b'\r', b'\n'] | [line @ .., b'\n'] => line,
        _ => line,
    }
}

impl Zone {
    fn records(&self, run: &Run) -> &[Record] {
        &self.records[run.from as usize..run.to as usize]
    }

    /// Sorts all records into canonical order, and leaves one run for each owner.
    fn sort(&mut self) {
        sort_runs(&mut self.runs, &self.octets, 0);
        let (mut kept, mut at) = (0, 0);
        while at < self.runs.len() {
            let key = self.runs[at].key(&self.octets);
            let is_same = |run: &&Run| run.key(&self.octets) == key;
            let end = at + 1 + self.runs[at + 1..].iter().take_while(is_same).count();
            self.runs[kept] = self.merge(at..end);
            kept += 1;
            at = end;
        }
        self.runs.truncate(kept);
    }

    /// Makes one sorted run of the runs of one owner. The owner is spelled as in the first record.
    fn merge(&mut self, range: Range<usize>) -> Run {
        let mut run = self.runs[range.start];
        if range.len() > 1 {
            let mut parts = self.runs[range].to_vec();
            parts.sort_unstable_by_key(|part| part.from);
            run = self.gather(&parts);
            self.sort_records(&mut run);
            // The run that a record was read in has the last owner before its data.
            let data = self.records[run.from as usize].data;
            run.owner = parts[parts.partition_point(|part| part.owner < data) - 1].owner;
        } else if run.to - run.from > 1 {
            self.sort_records(&mut run);
        }
        run
    }

    /// Copies the records of some runs to the end of the list, as one run.
    fn gather(&mut self, parts: &[Run]) -> Run {
        let from = self.records.len() as u32;
        for part in parts {
            self.records.extend_from_within(part.from as usize..part.to as usize);
        }
        Run { from, to: self.records.len() as u32, ..parts[0] }
    }

    /// Sorts the records of one owner. Of equal records with unequal TTLs it keeps the first read.
    fn sort_records(&mut self, run: &mut Run) {
        let octets = &self.octets;
        let records = &mut self.records[run.from as usize..run.to as usize];
        records.sort_by(|a, b| {
            let by_data = || a.data(octets).cmp(b.data(octets));
            a.rtype.cmp(&b.rtype).then_with(by_data)
        });
        let mut kept = 1;
        for at in 1..records.len() {
            let (last, next) = (records[kept - 1], records[at]);
            if last.rtype != next.rtype || last.data(octets) != next.data(octets) {
                records[kept] = next;
                kept += 1;
            }
        }
        run.to = run.from + kept as u32;
    }
}

/// Sorts runs by key. The keys agree before `depth`, and the chunks are those at `depth`.
fn sort_runs(runs: &mut [Run], octets: &[u8], depth: usize) {
    runs.sort_unstable_by_key(|run| run.chunk);
    for ties in runs.chunk_by_mut(|a, b| a.chunk == b.chunk) {
        // No label of a key begins with 0, so the chunk 0 says that all these keys have ended.
        if ties.len() > 1 && ties[0].chunk != 0 {
            for run in ties.iter_mut() {
                run.chunk = chunk(run.key(octets), depth + 8);
            }
            sort_runs(ties, octets, depth + 8);
        }
    }
}

/// An owner that is in the chain. `run` is its place among the runs of the zone.
struct Owner {
    run: u32,
    is_cut: bool,
    has_ds: bool,
}

/// The owners of a chain, in canonical order, with the TTLs of its records and of the SOA record.
struct Chain {
    owners: Vec<Owner>,
    ttl: u32,
    soa_ttl: u32,
}

impl Chain {
    /// Makes the chain of a sorted zone. With `optout` it lacks the delegations without DS.
    fn new(zone: &Zone, optout: bool) -> Result<Self, String> {
        let mut owners = Vec::with_capacity(zone.runs.len());
        let mut has_one_ttl = true;
        let mut cut: Option<&[u8]> = None;
        for (place, run) in zone.runs.iter().enumerate() {
            let key = run.key(&zone.octets);
            if cut.is_some_and(|cut| key.starts_with(cut)) {
                continue;
            }
            let records = zone.records(run);
            let is_cut = !key.is_empty() && records.iter().any(|record| record.rtype == NS);
            let has_ds = records.iter().any(|record| record.rtype == DS);
            if is_cut {
                cut = Some(key);
                if optout && !has_ds {
                    continue;
                }
            }
            let is_even = |a: &Record, b: &Record| a.rtype != b.rtype || a.ttl == b.ttl;
            has_one_ttl &= records
                .windows(2)
                .all(|pair| is_even(&pair[0], &pair[1]) || pair[0].rtype == RRSIG);
            owners.push(Owner { run: place as u32, is_cut, has_ds });
        }
        let soa = soa(zone).ok_or("no single SOA at the apex")?;
        if !has_one_ttl {
            return Err("RRset with more than one TTL".into());
        }
        let minimum =
            soa.data(&zone.octets).last_chunk().map_or(0, |last| u32::from_be_bytes(*last));
        Ok(Chain { owners, ttl: minimum.min(soa.ttl), soa_ttl: soa.ttl })
    }
}

/// Returns the SOA record of the apex, which is the first name of the zone.
fn soa(zone: &Zone) -> Option<&Record> {
    let apex = zone.runs.first().filter(|run| run.key(&zone.octets).is_empty())?;
    let mut soas = zone.records(apex).iter().filter(|record| record.rtype == SOA);
    let soa = soas.next()?;
    if soas.next().is_some() { None } else { Some(soa) }
}

/// The output, in one buffer, with room for the types of one owner.
struct Output<W> {
    buffer: Vec<u8>,
    types: Vec<u16>,
    device: W,
}

impl<W: Write> Output<W> {
    fn new(device: W) -> Self {
        Output { buffer: Vec::with_capacity(BUFFER), types: Vec::new(), device }
    }

    /// Prints the types of an owner together with `more`, in ascending order.
    fn print_types(&mut self, owner: &Owner, records: &[Record], more: &[u16]) {
        let types = &mut self.types;
        types.clear();
        types.extend_from_slice(more);
        let listed = |rtype: &u16| !owner.is_cut || *rtype == NS || *rtype == DS;
        types.extend(records.iter().map(|record| record.rtype).filter(listed));
        types.sort_unstable();
        types.dedup();
        for rtype in types {
            self.buffer.push(b' ');
            TYPES.print(&mut self.buffer, *rtype);
        }
    }

    fn end_line(&mut self) -> Result<(), String> {
        self.buffer.push(b'\n');
        if self.buffer.len() > BUFFER / 2 { self.flush() } else { Ok(()) }
    }

    fn flush(&mut self) -> Result<(), String> {
        let written = self.device.write_all(&self.buffer).and_then(|()| self.device.flush());
        self.buffer.clear();
        written.map_err(|_| "cannot write output".into())
    }
}

/// Prints the NSEC chain.
fn print_nsec(zone: &Zone, apex: &[u8], out: &mut Output<impl Write>) -> Result<(), String> {
    let chain = Chain::new(zone, false)?;
    let mut middle = vec![b' '];
    print_number(&mut middle, chain.ttl);
    middle.push(b' ');
    CLASSES.print(&mut middle, zone.class);
    middle.extend_from_slice(b" NSEC ");

    for (place, owner) in chain.owners.iter().enumerate() {
        let run = &zone.runs[owner.run as usize];
        let next = chain.owners.get(place + 1).map(|next| &zone.runs[next.run as usize]);
        print_name(&mut out.buffer, run.wire(&zone.octets));
        out.buffer.extend_from_slice(&middle);
        print_name(&mut out.buffer, next.map_or(apex, |next| next.wire(&zone.octets)));
        let more: &[u16] = if place == 0 { &[RRSIG, NSEC, DNSKEY] } else { &[RRSIG, NSEC] };
        out.print_types(owner, zone.records(run), more);
        out.end_line()?;
    }
    out.flush()
}

/// The parameters of an NSEC3 chain.
struct Params {
    iterations: u16,
    salt: Vec<u8>,
    optout: bool,
}

impl Params {
    /// Returns the hash of a name (RFC 5155, section 5).
    fn hash(&self, wire: &[u8]) -> [u8; 20] {
        let mut message = [0; 255 + 255];
        let len = wire.len() + self.salt.len();
        message[..wire.len()].copy_from_slice(wire);
        message[..wire.len()].make_ascii_lowercase();
        message[wire.len()..len].copy_from_slice(&self.salt);
        let mut hash = sha1(&message[..len]);
        if self.iterations > 0 {
            let len = hash.len() + self.salt.len();
            message[hash.len()..len].copy_from_slice(&self.salt);
            for _ in 0..self.iterations {
                message[..hash.len()].copy_from_slice(&hash);
                hash = sha1(&message[..len]);
            }
        }
        hash
    }

    /// Appends the fields that NSEC3 and NSEC3PARAM records share.
    fn print(&self, out: &mut Vec<u8>) {
        out.extend_from_slice(if self.optout { b"1 1 " } else { b"1 0 " });
        print_number(out, self.iterations.into());
        out.push(b' ');
        if self.salt.is_empty() {
            out.push(b'-');
        }
        for octet in &self.salt {
            out.extend_from_slice(format!("{octet:02X}").as_bytes());
        }
    }
}

/// A name of an NSEC3 chain: its hash, and its place among the owners of the chain.
struct Hashed {
    hash: [u8; 20],
    owner: u32,
}

/// The place of an empty non-terminal.
const NO_OWNER: u32 = u32::MAX;

impl Hashed {
    fn head(&self) -> u64 {
        self.hash.first_chunk().map_or(0, |head| u64::from_be_bytes(*head))
    }
}

/// Hashes the owners of a chain and the empty non-terminals, and sorts them.
fn hash_names(zone: &Zone, chain: &Chain, params: &Params) -> Result<Vec<Hashed>, String> {
    let mut names = Vec::with_capacity(chain.owners.len());
    let mut last: &[u8] = &[];
    for (place, owner) in chain.owners.iter().enumerate() {
        let run = &zone.runs[owner.run as usize];
        let (wire, key) = (run.wire(&zone.octets), run.key(&zone.octets));
        names.push(Hashed { hash: params.hash(wire), owner: place as u32 });
        // The names above that the last owner does not share are empty non-terminals.
        let shared = last.iter().zip(key).take_while(|(a, b)| a == b).count();
        let fresh = key[shared..].iter().filter(|octet| **octet == 0).count();
        let mut at = 0;
        for _ in 1..fresh {
            at += 1 + wire[at] as usize;
            names.push(Hashed { hash: params.hash(&wire[at..]), owner: NO_OWNER });
        }
        last = key;
    }
    names.sort_unstable_by(|a, b| a.head().cmp(&b.head()).then_with(|| a.hash.cmp(&b.hash)));
    if names.windows(2).any(|pair| pair[0].hash == pair[1].hash) {
        return Err("hash collision".into());
    }
    Ok(names)
}

/// Prints the NSEC3 chain and its NSEC3PARAM record.
fn print_nsec3(
    zone: &Zone,
    apex: &[u8],
    params: &Params,
    out: &mut Output<impl Write>,
) -> Result<(), String> {
    let chain = Chain::new(zone, params.optout)?;
    if apex.len() + 33 > 255 {
        return Err("hashed owner name too long".into());
    }
    let names = hash_names(zone, &chain, params)?;
    let mut middle = vec![b'.'];
    if apex.len() > 1 {
        print_name(&mut middle, apex);
    }
    middle.push(b' ');
    print_number(&mut middle, chain.ttl);
    middle.extend_from_slice(b" IN NSEC3 ");
    params.print(&mut middle);
    middle.push(b' ');

    for (place, name) in names.iter().enumerate() {
        let next = names.get(place + 1).unwrap_or(&names[0]);
        out.buffer.extend_from_slice(&base32hex(&name.hash, b"0123456789abcdefghijklmnopqrstuv"));
        out.buffer.extend_from_slice(&middle);
        out.buffer.extend_from_slice(&base32hex(&next.hash, b"0123456789ABCDEFGHIJKLMNOPQRSTUV"));
        if let Some(owner) = chain.owners.get(name.owner as usize) {
            let records = zone.records(&zone.runs[owner.run as usize]);
            out.print_types(owner, records, hashed_types(name, owner));
        }
        out.end_line()?;
    }
    print_name(&mut out.buffer, apex);
    out.buffer.push(b' ');
    print_number(&mut out.buffer, chain.soa_ttl);
    out.buffer.extend_from_slice(b" IN NSEC3PARAM ");
    params.print(&mut out.buffer);
    out.end_line()?;
    out.flush()
}

/// Returns the types that a signer adds to an owner.
fn hashed_types(name: &Hashed, owner: &Owner) -> &'static [u16] {
    match name.owner {
        0 => &[RRSIG, DNSKEY, NSEC3PARAM],
        _ if owner.is_cut && !owner.has_ds => &[],
        _ => &[RRSIG],
    }
}

fn base32hex(hash: &[u8; 20], digits: &[u8; 32]) -> [u8; 32] {
    let mut printed = [0; 32];
    for (octets, out) in hash.chunks_exact(5).zip(printed.chunks_exact_mut(8)) {
        let number = octets.iter().fold(0u64, |number, octet| number << 8 | u64::from(*octet));
        for (place, digit) in out.iter_mut().enumerate() {
            *digit = digits[(number >> (35 - 5 * place)) as usize & 31];
        }
    }
    printed
}

/// Returns the SHA-1 hash of a message (FIPS 180-4).
fn sha1(message: &[u8]) -> [u8; 20] {
    let mut state = [0x67452301, 0xefcdab89, 0x98badcfe, 0x10325476, 0xc3d2e1f0];
    let mut blocks = message.chunks_exact(64);
    for block in &mut blocks {
        add_block(&mut state, block);
    }
    let rest = blocks.remainder();
    let mut block = [0; 64];
    block[..rest.len()].copy_from_slice(rest);
    block[rest.len()] = 0x80;
    if rest.len() > 55 {
        add_block(&mut state, &block);
        block = [0; 64];
    }
    block[56..].copy_from_slice(&(message.len() as u64 * 8).to_be_bytes());
    add_block(&mut state, &block);
    let mut hash = [0; 20];
    for (octets, word) in hash.chunks_exact_mut(4).zip(state) {
        octets.copy_from_slice(&word.to_be_bytes());
    }
    hash
}

/// Adds a block of 64 octets to the state.
fn add_block(state: &mut [u32; 5], block: &[u8]) {
    let mut words = [0u32; 80];
    for (word, octets) in words.iter_mut().zip(block.as_chunks().0) {
        *word = u32::from_be_bytes(*octets);
    }
    for at in 16..32 {
        words[at] =
            (words[at - 3] ^ words[at - 8] ^ words[at - 14] ^ words[at - 16]).rotate_left(1);
    }
    // The same step twice: the compiler makes four of these words at a time.
    for at in 32..80 {
        words[at] =
            (words[at - 6] ^ words[at - 16] ^ words[at - 28] ^ words[at - 32]).rotate_left(2);
    }
    let mut next = *state;
    add_words(&mut next, &words[..20], 0x5a827999, |b, c, d| d ^ (b & (c ^ d)));
    add_words(&mut next, &words[20..40], 0x6ed9eba1, |b, c, d| b ^ c ^ d);
    add_words(&mut next, &words[40..60], 0x8f1bbcdc, |b, c, d| (b & c) | (d & (b | c)));
    add_words(&mut next, &words[60..], 0xca62c1d6, |b, c, d| b ^ c ^ d);
    for (word, next) in state.iter_mut().zip(next) {
        *word = word.wrapping_add(next);
    }
}

/// Adds twenty words. Five at a time leave each part of the state in its place.
#[inline(always)]
fn add_words(
    state: &mut [u32; 5],
    words: &[u32],
    constant: u32,
    mix: impl Fn(u32, u32, u32) -> u32,
) {
    let [mut a, mut b, mut c, mut d, mut e] = *state;
    let add = |a: u32, b: &mut u32, c: u32, d: u32, e: &mut u32, word: u32| {
        let sum = a.rotate_left(5).wrapping_add(mix(*b, c, d)).wrapping_add(constant);
        *e = e.wrapping_add(sum).wrapping_add(word);
        *b = b.rotate_left(30);
    };
    for five in words.as_chunks::<5>().0 {
        add(a, &mut b, c, d, &mut e, five[0]);
        add(e, &mut a, b, c, &mut d, five[1]);
        add(d, &mut e, a, b, &mut c, five[2]);
        add(c, &mut d, e, a, &mut b, five[3]);
        add(b, &mut c, d, e, &mut a, five[4]);
    }
    *state = [a, b, c, d, e];
}

/// What the arguments ask for. Without parameters it is the NSEC chain.
struct Command {
    apex: Name,
    params: Option<Params>,
}

impl Command {
    fn new(arguments: &[String]) -> Option<Self> {
        let arguments: Vec<&str> = arguments.iter().map(String::as_str).collect();
        let mut command = Command { apex: Name::new(), params: None };
        let apex = match arguments[..] {
            ["nsec", apex] => apex,
            ["nsec3", apex, iterations, salt, ref rest @ ..] if matches!(rest, [] | ["optout"]) => {
                let iterations = scan_number(iterations.as_bytes())?.try_into().ok()?;
                let (salt, optout) = (scan_salt(salt.as_bytes())?, !rest.is_empty());
                command.params = Some(Params { iterations, salt, optout });
                apex
            }
            _ => return None,
        };
        command.apex.scan(apex.as_bytes())?;
        Some(command)
    }

    fn run(&self) -> Result<(), String> {
        let apex = self.apex.as_wire();
        let mut zone = Reader::new(apex).read(io::stdin().lock())?;
        zone.sort();
        let mut out = Output::new(io::stdout().lock());
        match &self.params {
            None => print_nsec(&zone, apex, &mut out),
            Some(params) => print_nsec3(&zone, apex, params, &mut out),
        }
    }
}

fn scan_salt(digits: &[u8]) -> Option<Vec<u8>> {
    let mut salt = Vec::new();
    if digits != b"-" && (digits.len() > 510 || scan_digits(&mut salt, digits)?.is_some()) {
        return None;
    }
    Some(salt)
}

fn main() -> ExitCode {
    let arguments = std::env::args_os().skip(1).map(|argument| argument.to_string_lossy().into());
    let Some(command) = Command::new(&arguments.collect::<Vec<String>>()) else {
        eprintln!("{USAGE}");
        return ExitCode::from(2);
    };
    match command.run() {
        Ok(()) => ExitCode::SUCCESS,
        Err(fault) => {
            eprintln!("yardstick: {fault}");
            ExitCode::FAILURE
        }
    }
}
