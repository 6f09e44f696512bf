//! The yardstick: reads a revocation list (PROTOCOL.krl) as one would in plain Rust, and looks up
//! keys by their blobs. `plain hold LIST [KEYS]` puts the list into the standard library's ordered
//! maps first, and `plain pass LIST [KEYS]` looks at each entry as it passes; both print a line for
//! each key.

use std::collections::{BTreeMap, BTreeSet, HashSet};
use std::fs::File;
use std::io::{self, BufRead, BufReader, BufWriter, Read, Write};

const LIMIT: u64 = 64 << 20;

/// Receives the entries of a list.
trait Entries {
    fn authority(&mut self, name: &[u8]);
    /// Whether some serial from `lo` to `hi` counts.
    fn wants(&self, lo: u64, hi: u64) -> bool;
    fn serials(&mut self, lo: u64, hi: u64);
    fn id(&mut self, id: &[u8]);
    fn key(&mut self, blob: &[u8]);
    fn sha1(&mut self, hash: [u8; 20]);
    fn sha256(&mut self, hash: [u8; 32]);
    fn is_revoked(&self, blob: &[u8]) -> bool;
}

/// Intervals that do not touch, by their first number.
#[derive(Default)]
struct Spans(BTreeMap<u64, u64>);

impl Spans {
    fn add(&mut self, mut lo: u64, mut hi: u64) {
        let from = self.0.range(..lo).next_back();
        if let Some((&before, &end)) = from.filter(|&(_, &end)| end >= lo - 1) {
            lo = before;
            hi = hi.max(end);
        }
        let past = hi.saturating_add(1);
        while let Some((&next, &end)) = self.0.range(lo..=past).next() {
            self.0.remove(&next);
            if end > hi {
                hi = end;
                break;
            }
        }
        self.0.insert(lo, hi);
    }
}

#[derive(Default)]
struct Authority {
    serials: Spans,
    ids: BTreeSet<Vec<u8>>,
}

/// All of a list.
#[derive(Default)]
struct Revoked {
    places: BTreeMap<Vec<u8>, usize>,
    authorities: Vec<Authority>,
    at: usize,
    keys: BTreeSet<Vec<u8>>,
    sha1s: BTreeSet<[u8; 20]>,
    sha256s: BTreeSet<[u8; 32]>,
}

impl Entries for Revoked {
    fn authority(&mut self, name: &[u8]) {
        self.at = match self.places.get(name) {
            Some(&at) => at,
            None => {
                self.places.insert(name.to_vec(), self.authorities.len());
                self.authorities.push(Authority::default());
                self.authorities.len() - 1
            }
        }
    }

    fn wants(&self, _lo: u64, _hi: u64) -> bool {
        true
    }

    fn serials(&mut self, lo: u64, hi: u64) {
        self.authorities[self.at].serials.add(lo, hi);
    }

    fn id(&mut self, id: &[u8]) {
        self.authorities[self.at].ids.insert(id.to_vec());
    }

    fn key(&mut self, blob: &[u8]) {
        self.keys.insert(blob.to_vec());
    }

    fn sha1(&mut self, hash: [u8; 20]) {
        self.sha1s.insert(hash);
    }

    fn sha256(&mut self, hash: [u8; 32]) {
        self.sha256s.insert(hash);
    }

    fn is_revoked(&self, blob: &[u8]) -> bool {
        self.keys.contains(blob)
    }
}

/// The keys of the query, and those that the list names. Plain keys have no serials and no key IDs.
/// The standard library has no hashes, so the hashes of a list are looked up in an empty set.
#[derive(Default)]
struct Asked {
    keys: HashSet<Vec<u8>>,
    found: HashSet<Vec<u8>>,
    sha1s: HashSet<[u8; 20]>,
    sha256s: HashSet<[u8; 32]>,
    named: u64,
}

impl Entries for Asked {
    fn authority(&mut self, _name: &[u8]) {}

    fn wants(&self, _lo: u64, _hi: u64) -> bool {
        false
    }

    fn serials(&mut self, _lo: u64, _hi: u64) {}

    fn id(&mut self, _id: &[u8]) {}

    fn key(&mut self, blob: &[u8]) {
        if self.keys.contains(blob) {
            self.found.insert(blob.to_vec());
        }
    }

    fn sha1(&mut self, hash: [u8; 20]) {
        self.named += u64::from(self.sha1s.contains(&hash));
    }

    fn sha256(&mut self, hash: [u8; 32]) {
        self.named += u64::from(self.sha256s.contains(&hash));
    }

    fn is_revoked(&self, blob: &[u8]) -> bool {
        self.found.contains(blob)
    }
}

fn refuse<T>(why: &str) -> io::Result<T> {
    Err(io::Error::new(io::ErrorKind::InvalidData, why.to_string()))
}

/// Bytes of a section, and how many are left.
struct Part<'r, R> {
    reader: &'r mut R,
    left: u64,
}

impl<R: Read> Part<'_, R> {
    fn take(&mut self, count: u64) -> io::Result<()> {
        if count > self.left {
            return refuse("length");
        }
        self.left -= count;
        Ok(())
    }

    fn array<const N: usize>(&mut self) -> io::Result<[u8; N]> {
        self.take(N as u64)?;
        let mut bytes = [0; N];
        self.reader.read_exact(&mut bytes)?;
        Ok(bytes)
    }

    fn byte(&mut self) -> io::Result<u8> {
        Ok(self.array::<1>()?[0])
    }

    fn u32(&mut self) -> io::Result<u64> {
        Ok(u64::from(u32::from_be_bytes(self.array()?)))
    }

    fn u64(&mut self) -> io::Result<u64> {
        Ok(u64::from_be_bytes(self.array()?))
    }

    fn string(&mut self, bytes: &mut Vec<u8>) -> io::Result<()> {
        let size = self.u32()?;
        self.take(size)?;
        bytes.clear();
        (&mut *self.reader).take(size).read_to_end(bytes)?;
        if bytes.len() as u64 == size { Ok(()) } else { refuse("end") }
    }

    fn part(&mut self) -> io::Result<Part<'_, R>> {
        let left = self.u32()?;
        self.take(left)?;
        Ok(Part { reader: self.reader, left })
    }

    fn skip(&mut self) -> io::Result<()> {
        let size = self.u32()?;
        self.pass(size)
    }

    fn pass(&mut self, size: u64) -> io::Result<()> {
        self.take(size)?;
        io::copy(&mut (&mut *self.reader).take(size), &mut io::sink())?;
        Ok(())
    }
}

/// The set bits of a bitmap, highest byte first, as intervals.
fn bitmap<R: Read>(part: &mut Part<R>, entries: &mut impl Entries) -> io::Result<()> {
    let offset = part.u64()?;
    let size = part.u32()?;
    if !entries.wants(offset, offset.saturating_add(8 * size)) {
        return part.pass(size);
    }
    let mut open: Option<(u64, u64)> = None;
    for after in (0..size).rev() {
        let byte = part.byte()?;
        for bit in (0..8).rev() {
            let serial = offset.wrapping_add(8 * after + bit);
            if byte >> bit & 1 == 1 && serial > 0 {
                open = Some((serial, open.map_or(serial, |(_, hi)| hi)));
            } else if let Some((lo, hi)) = open.take() {
                entries.serials(lo, hi);
            }
        }
    }
    if let Some((lo, hi)) = open {
        entries.serials(lo, hi);
    }
    Ok(())
}

fn certificates<R: Read>(part: &mut Part<R>, entries: &mut impl Entries) -> io::Result<()> {
    let mut text = Vec::new();
    part.string(&mut text)?;
    entries.authority(&text);
    part.skip()?;
    while part.left > 0 {
        let kind = part.byte()?;
        let mut part = part.part()?;
        match kind {
            0x20 => {
                while part.left > 0 {
                    let serial = part.u64()?;
                    if serial > 0 {
                        entries.serials(serial, serial);
                    }
                }
            }
            0x21 => {
                let (lo, hi) = (part.u64()?.max(1), part.u64()?);
                if lo <= hi {
                    entries.serials(lo, hi);
                }
            }
            0x22 => bitmap(&mut part, entries)?,
            0x23 => {
                while part.left > 0 {
                    part.string(&mut text)?;
                    entries.id(&text);
                }
            }
            _ => return refuse("subsection"),
        }
    }
    Ok(())
}

fn read_list(reader: &mut impl Read, entries: &mut impl Entries) -> io::Result<()> {
    let mut list = Part { reader, left: LIMIT };
    if &list.array::<8>()? != b"SSHKRL\n\0" || list.u32()? != 1 {
        return refuse("magic");
    }
    list.array::<24>()?;
    list.skip()?;
    list.skip()?;
    let mut text = Vec::new();
    loop {
        let kind = match list.byte() {
            Err(error) if error.kind() == io::ErrorKind::UnexpectedEof => return Ok(()),
            kind => kind?,
        };
        let mut part = list.part()?;
        match kind {
            1 => certificates(&mut part, entries)?,
            2 => {
                while part.left > 0 {
                    part.string(&mut text)?;
                    entries.key(&text);
                }
            }
            3 => {
                while part.left > 0 {
                    part.u32()?;
                    entries.sha1(part.array()?);
                }
            }
            5 => {
                while part.left > 0 {
                    part.u32()?;
                    entries.sha256(part.array()?);
                }
            }
            _ => return refuse("section"),
        }
    }
}

fn decoded(word: &str) -> Vec<u8> {
    let alphabet = b"ABCDEFGHIJKLMNOPQRSTUVWXYZabcdefghijklmnopqrstuvwxyz0123456789+/";
    let (mut bytes, mut bits, mut held) = (Vec::new(), 0, 0u32);
    for digit in word.bytes().map_while(|byte| alphabet.iter().position(|&it| it == byte)) {
        held = held << 6 | digit as u32;
        bits += 6;
        if bits >= 8 {
            bits -= 8;
            bytes.push((held >> bits) as u8);
        }
    }
    bytes
}

/// The blobs of the keys of files, each with the file's name.
fn keys_of(names: &[String]) -> io::Result<Vec<(&str, Vec<u8>)>> {
    let mut keys = Vec::new();
    for name in names {
        for line in BufReader::new(File::open(name)?).lines() {
            keys.push((name.as_str(), decoded(line?.split(' ').nth(1).unwrap_or(""))));
        }
    }
    Ok(keys)
}

/// Reads the list, and says of each key whether it is revoked.
fn answer(list: &str, keys: &[(&str, Vec<u8>)], entries: &mut impl Entries) -> io::Result<()> {
    read_list(&mut BufReader::with_capacity(1 << 16, File::open(list)?), entries)?;
    let mut out = BufWriter::new(io::stdout().lock());
    for (name, blob) in keys {
        let verdict = if entries.is_revoked(blob) { "REVOKED" } else { "ok" };
        writeln!(out, "{name}: {verdict}")?;
    }
    out.flush()
}

fn main() -> io::Result<()> {
    let words: Vec<String> = std::env::args().skip(1).collect();
    let keys = keys_of(&words[2..])?;
    if words[0] == "hold" {
        return answer(&words[1], &keys, &mut Revoked::default());
    }
    let mut asked = Asked::default();
    asked.keys.extend(keys.iter().map(|(_, blob)| blob.clone()));
    answer(&words[1], &keys, &mut asked)
}
