//! What whload does at this stage, in plain Rust with the real `csv` crate and no proofs: `twin load DIR FILE COLUMNS`
//! reads a CSV file once, checks and packs its rows, and writes one table file with the same writes and syncs; `twin dump
//! DIR NAMES COLUMNS` checks that table and writes its rows as CSV; `twin join DIR LEFT COLUMNS RIGHT COLUMNS` joins two
//! files by the second column of the left one and the first of the right one; `twin group DIR FILE COLUMNS` counts and sums
//! the second column by the first, `twin distinct` keeps the first of each equal row, and `twin sort` sorts by all columns,
//! all of them ints that aren't negative. COLUMNS are kinds with commas between: `int`, `dec2`, `text`, and `?` behind one
//! that may be empty.
use std::collections::{HashMap, HashSet};
use std::error::Error;
use std::fs::{self, OpenOptions};
use std::io::{Read, Seek, SeekFrom, Write};
use std::path::Path;

type Outcome<T> = Result<T, Box<dyn Error>>;

#[derive(Clone, Copy)]
enum Kind {
    Int,
    Dec(u8),
    Text,
}

#[derive(Clone, Copy)]
struct Column {
    kind: Kind,
    nullable: bool,
}

/// A value that its bytes or its field lend.
enum Lent<'a> {
    Null,
    Int(i64),
    Dec(i64),
    Text(&'a str),
}

fn columns_of(text: &str) -> Outcome<Vec<Column>> {
    let mut columns = Vec::new();
    for word in text.split(',') {
        let (word, nullable) = match word.strip_suffix('?') {
            Some(word) => (word, true),
            None => (word, false),
        };
        let kind = match word {
            "int" => Kind::Int,
            "text" => Kind::Text,
            _ => Kind::Dec(word.strip_prefix("dec").ok_or("kind")?.parse()?),
        };
        columns.push(Column { kind, nullable });
    }
    Ok(columns)
}

/// The units of a decimal number with at most so many digits behind its point.
fn read_units(field: &[u8], places: u8) -> Outcome<i64> {
    let (negative, digits) = match field {
        [b'-', digits @ ..] => (true, digits),
        [b'+', digits @ ..] => (false, digits),
        digits => (false, digits),
    };
    let (mut size, mut behind, mut point, mut some) = (0i128, 0, false, false);
    for byte in digits {
        match byte {
            b'.' if !point => point = true,
            b'0'..=b'9' => {
                size = size * 10 + i128::from(byte - b'0');
                if size > 1 << 70 {
                    return Err("number out of range".into());
                }
                behind += u8::from(point);
                some = true;
            }
            _ => return Err("not a number".into()),
        }
    }
    if !some || behind > places {
        return Err("not a number of these places".into());
    }
    for _ in behind..places {
        size *= 10;
    }
    Ok(i64::try_from(if negative { -size } else { size })?)
}

fn read_field(field: &[u8], column: Column) -> Outcome<Lent<'_>> {
    if field.is_empty() && column.nullable {
        return Ok(Lent::Null);
    }
    match column.kind {
        Kind::Int => Ok(Lent::Int(std::str::from_utf8(field)?.parse()?)),
        Kind::Dec(places) => Ok(Lent::Dec(read_units(field, places)?)),
        Kind::Text if field.len() > 4096 => Err("text too long".into()),
        Kind::Text => Ok(Lent::Text(std::str::from_utf8(field)?)),
    }
}

/// Calls `take` with each record behind the header.
fn each_record(bytes: &[u8], columns: &[Column], mut take: impl FnMut(&csv::ByteRecord) -> Outcome<()>) -> Outcome<()> {
    let mut reader = csv::ReaderBuilder::new().has_headers(false).flexible(true).from_reader(bytes);
    let mut record = csv::ByteRecord::new();
    let mut header = true;
    while reader.read_byte_record(&mut record)? {
        if record.len() != columns.len() {
            return Err("another number of fields".into());
        }
        if !header {
            take(&record)?;
        }
        header = false;
    }
    Ok(())
}

/// Rows as a table has them, one after the other, and where each ends.
struct Packed {
    bytes: Vec<u8>,
    ends: Vec<usize>,
}

fn pack(value: Lent<'_>, into: &mut Vec<u8>) {
    match value {
        Lent::Null => into.push(0),
        Lent::Int(number) | Lent::Dec(number) => {
            into.push(1);
            into.extend_from_slice(&number.to_be_bytes());
        }
        Lent::Text(text) => {
            into.push(1);
            into.extend_from_slice(&(text.len() as u16).to_be_bytes());
            into.extend_from_slice(text.as_bytes());
        }
    }
}

fn read_rows(bytes: &[u8], columns: &[Column]) -> Outcome<Packed> {
    let mut rows = Packed { bytes: Vec::new(), ends: Vec::new() };
    each_record(bytes, columns, |record| {
        for (field, column) in record.iter().zip(columns) {
            pack(read_field(field, *column)?, &mut rows.bytes);
        }
        rows.ends.push(rows.bytes.len());
        Ok(())
    })?;
    Ok(rows)
}

/// What stands behind a block's gate: its head, its rows, and the next gate.
fn block_of(count: usize, rows: &[u8], behind: &mut Vec<u8>) {
    behind.clear();
    behind.push(0);
    behind.extend_from_slice(&(count as u32).to_be_bytes());
    behind.extend_from_slice(&(rows.len() as u32).to_be_bytes());
    behind.extend_from_slice(rows);
    behind.push(0);
}

fn commit(file: &mut fs::File, gate: u64, behind: &[u8]) -> std::io::Result<()> {
    file.seek(SeekFrom::Start(gate + 1))?;
    file.write_all(behind)?;
    file.sync_all()?;
    file.seek(SeekFrom::Start(gate))?;
    file.write_all(&[1])?;
    file.sync_all()
}

fn load(dir: &Path, name: &str, columns: &[Column]) -> Outcome<()> {
    let bytes = fs::read(dir.join(name))?;
    let rows = read_rows(&bytes, columns)?;
    drop(bytes);
    write_table(dir, &rows)
}

/// Joins two files on the second column of the left one and the first of the right one, which are ints, by a table of
/// hashes.
fn join(dir: &Path, left: (&str, &[Column]), right: (&str, &[Column])) -> Outcome<()> {
    let bytes = fs::read(dir.join(right.0))?;
    let mut rights = Vec::new();
    let mut places: HashMap<i64, Vec<(usize, usize)>> = HashMap::new();
    each_record(&bytes, right.1, |record| {
        let Lent::Int(key) = read_field(&record[0], right.1[0])? else { return Ok(()) };
        let start = rights.len();
        for (field, column) in record.iter().zip(right.1).skip(1) {
            pack(read_field(field, *column)?, &mut rights);
        }
        places.entry(key).or_default().push((start, rights.len()));
        Ok(())
    })?;
    let bytes = fs::read(dir.join(left.0))?;
    let mut rows = Packed { bytes: Vec::new(), ends: Vec::new() };
    let mut row = Vec::new();
    each_record(&bytes, left.1, |record| {
        row.clear();
        for (field, column) in record.iter().zip(left.1) {
            pack(read_field(field, *column)?, &mut row);
        }
        let Lent::Int(key) = read_field(&record[1], left.1[1])? else { return Ok(()) };
        for (start, end) in places.get(&key).into_iter().flatten() {
            rows.bytes.extend_from_slice(&row);
            rows.bytes.extend_from_slice(&rights[*start..*end]);
            rows.ends.push(rows.bytes.len());
        }
        Ok(())
    })?;
    drop(bytes);
    write_table(dir, &rows)
}

/// Counts and sums the second column by the first, both ints, with a table of hashes; groups come as they appear.
fn group(dir: &Path, name: &str, columns: &[Column]) -> Outcome<()> {
    let bytes = fs::read(dir.join(name))?;
    let mut places: HashMap<i64, usize> = HashMap::new();
    let mut groups: Vec<(i64, i64, i128)> = Vec::new();
    each_record(&bytes, columns, |record| {
        let Lent::Int(key) = read_field(&record[0], columns[0])? else { return Ok(()) };
        let Lent::Int(number) = read_field(&record[1], columns[1])? else { return Ok(()) };
        let place = *places.entry(key).or_insert(groups.len());
        if place == groups.len() {
            groups.push((key, 0, 0));
        }
        groups[place].1 += 1;
        groups[place].2 += i128::from(number);
        Ok(())
    })?;
    drop(bytes);
    let mut rows = Packed { bytes: Vec::new(), ends: Vec::new() };
    for (key, count, sum) in groups {
        for number in [key, count, i64::try_from(sum)?] {
            pack(Lent::Int(number), &mut rows.bytes);
        }
        rows.ends.push(rows.bytes.len());
    }
    write_table(dir, &rows)
}

/// The bytes of each row.
fn each_row(rows: &Packed) -> impl Iterator<Item = &[u8]> {
    let starts = std::iter::once(0).chain(rows.ends.iter().copied());
    starts.zip(&rows.ends).map(|(start, end)| &rows.bytes[start..*end])
}

fn write_rows<'a>(dir: &Path, those: impl Iterator<Item = &'a [u8]>) -> Outcome<()> {
    let mut made = Packed { bytes: Vec::new(), ends: Vec::new() };
    for row in those {
        made.bytes.extend_from_slice(row);
        made.ends.push(made.bytes.len());
    }
    write_table(dir, &made)
}

fn distinct(dir: &Path, name: &str, columns: &[Column]) -> Outcome<()> {
    let bytes = fs::read(dir.join(name))?;
    let rows = read_rows(&bytes, columns)?;
    drop(bytes);
    let mut seen = HashSet::new();
    write_rows(dir, each_row(&rows).filter(|row| seen.insert(*row)))
}

/// Sorts rows of ints that aren't negative, of which the bytes ascend as the values do.
fn sort(dir: &Path, name: &str, columns: &[Column]) -> Outcome<()> {
    let bytes = fs::read(dir.join(name))?;
    let rows = read_rows(&bytes, columns)?;
    drop(bytes);
    let mut sorted: Vec<&[u8]> = each_row(&rows).collect();
    sorted.sort();
    write_rows(dir, sorted.into_iter())
}

fn write_table(dir: &Path, rows: &Packed) -> Outcome<()> {
    let text = fs::read(dir.join("flow.toml"))?;
    let mut head = b"WHTABLE".to_vec();
    head.extend_from_slice(&1u32.to_be_bytes());
    head.extend_from_slice(&(text.len() as u32).to_be_bytes());
    head.extend_from_slice(&text);
    head.push(0);

    let mut file = OpenOptions::new().read(true).write(true).create(true).open(dir.join("table.whl"))?;
    file.write_all(&[0])?;
    file.sync_all()?;
    commit(&mut file, 0, &head)?;
    let mut gate = head.len() as u64;
    let mut block = Vec::new();
    let mut start = 0;
    for ends in rows.ends.chunks(1000) {
        let end = ends[ends.len() - 1];
        block_of(ends.len(), &rows.bytes[start..end], &mut block);
        commit(&mut file, gate, &block)?;
        gate += block.len() as u64;
        start = end;
    }
    commit(&mut file, gate, &[1, 0, 0, 0, 0, 0, 0, 0, 0, 0])?;
    println!("complete\nbefore 0\nadded {}", rows.ends.len());
    Ok(())
}

/// The value at the front of the bytes, and the bytes behind it.
fn value_at(bytes: &[u8], column: Column) -> Outcome<(Lent<'_>, &[u8])> {
    match (bytes, column.kind) {
        ([0, rest @ ..], _) if column.nullable => Ok((Lent::Null, rest)),
        ([1, rest @ ..], Kind::Text) if rest.len() >= 2 => {
            let (len, rest) = rest.split_at(2);
            let len = usize::from(u16::from_be_bytes(len.try_into()?));
            let text = rest.get(..len).ok_or("text")?;
            Ok((Lent::Text(std::str::from_utf8(text)?), &rest[len..]))
        }
        ([1, rest @ ..], kind) if rest.len() >= 8 => {
            let (number, rest) = rest.split_at(8);
            let number = i64::from_be_bytes(number.try_into()?);
            Ok((if matches!(kind, Kind::Int) { Lent::Int(number) } else { Lent::Dec(number) }, rest))
        }
        _ => Err("no value".into()),
    }
}

/// Calls `take` with the rows' bytes of each block, and their count.
fn each_block(file: &mut fs::File, mut take: impl FnMut(usize, &[u8]) -> Outcome<()>) -> Outcome<()> {
    let mut head = [0; 16];
    file.seek(SeekFrom::Start(0))?;
    file.read_exact(&mut head)?;
    let mut gate = 16 + u64::from(u32::from_be_bytes(head[12..].try_into()?));
    let mut bytes = Vec::new();
    loop {
        let mut front = [0; 10];
        file.seek(SeekFrom::Start(gate))?;
        if file.read(&mut front)? < 10 || front[0] != 1 || front[1] == 1 {
            return Ok(());
        }
        let count = u32::from_be_bytes(front[2..6].try_into()?) as usize;
        let len = u32::from_be_bytes(front[6..].try_into()?) as usize;
        bytes.resize(len, 0);
        file.read_exact(&mut bytes)?;
        take(count, &bytes)?;
        gate += 10 + len as u64;
    }
}

fn verify(file: &mut fs::File, columns: &[Column]) -> Outcome<()> {
    each_block(file, |count, bytes| {
        let mut rest = bytes;
        for _ in 0..count {
            for column in columns {
                rest = value_at(rest, *column)?.1;
            }
        }
        Ok(())
    })
}

fn print_units(units: i64, places: u8, into: &mut Vec<u8>) -> Outcome<()> {
    let (size, scale) = (units.unsigned_abs(), 10u64.pow(u32::from(places)));
    let sign = if units < 0 { "-" } else { "" };
    write!(into, "{sign}{}.{:0width$}", size / scale, size % scale, width = usize::from(places))?;
    Ok(())
}

fn dump(dir: &Path, names: &[&str], columns: &[Column]) -> Outcome<()> {
    let mut file = OpenOptions::new().read(true).open(dir.join("table.whl"))?;
    verify(&mut file, columns)?;
    let mut writer = csv::Writer::from_writer(std::io::stdout().lock());
    writer.write_record(names)?;
    let mut field = Vec::new();
    each_block(&mut file, |count, bytes| {
        let mut rest = bytes;
        for _ in 0..count {
            for column in columns {
                let (value, others) = value_at(rest, *column)?;
                rest = others;
                field.clear();
                match (value, column.kind) {
                    (Lent::Null, _) => {}
                    (Lent::Int(number), _) => write!(field, "{number}")?,
                    (Lent::Dec(units), Kind::Dec(places)) => print_units(units, places, &mut field)?,
                    (Lent::Dec(_), _) => return Err("kind".into()),
                    (Lent::Text(text), _) => {
                        writer.write_field(text)?;
                        continue;
                    }
                }
                writer.write_field(&field)?;
            }
            writer.write_record(None::<&[u8]>)?;
        }
        Ok(())
    })?;
    writer.flush()?;
    Ok(())
}

fn main() -> Outcome<()> {
    let words: Vec<String> = std::env::args().skip(1).collect();
    let words: Vec<&str> = words.iter().map(String::as_str).collect();
    match words.as_slice() {
        ["load", dir, file, columns] => load(Path::new(dir), file, &columns_of(columns)?),
        ["dump", dir, names, columns] => {
            dump(Path::new(dir), &names.split(',').collect::<Vec<_>>(), &columns_of(columns)?)
        }
        ["join", dir, left, lefts, right, rights] => {
            join(Path::new(dir), (left, &columns_of(lefts)?), (right, &columns_of(rights)?))
        }
        ["group", dir, file, columns] => group(Path::new(dir), file, &columns_of(columns)?),
        ["distinct", dir, file, columns] => distinct(Path::new(dir), file, &columns_of(columns)?),
        ["sort", dir, file, columns] => sort(Path::new(dir), file, &columns_of(columns)?),
        _ => Err("usage: twin load|group|distinct|sort DIR FILE COLUMNS, twin dump DIR NAMES COLUMNS, \
            twin join DIR FILE COLUMNS FILE COLUMNS"
            .into()),
    }
}
