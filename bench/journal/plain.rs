// The yardstick of the journal: the four calls of an append, and one pass over a file of records.
use std::env;
use std::fs::{self, File, OpenOptions};
use std::io;
use std::os::unix::fs::FileExt;

const MARK: &[u8; 15] = b"FACTBASE LOG 1\n";
const PAYLOAD: [u8; 83] = [7; 83];

fn record() -> Vec<u8> {
    let mut bytes = (PAYLOAD.len() as u64).to_be_bytes().to_vec();
    bytes.extend_from_slice(&PAYLOAD);
    bytes.push(0);
    bytes
}

fn open(dir: &str) -> io::Result<File> {
    OpenOptions::new().read(true).write(true).create(true).truncate(false).open(format!("{dir}/log"))
}

fn append(dir: &str, count: u64) -> io::Result<()> {
    let file = open(dir)?;
    let mut gate = file.metadata()?.len().max(16) - 1;
    if gate == 15 {
        file.write_all_at(MARK, 0)?;
        file.write_all_at(&[0], 15)?;
        file.sync_data()?;
    }
    for _ in 0..count {
        let record = record();
        file.write_all_at(&record, gate + 1)?;
        file.sync_data()?;
        file.write_all_at(&[1], gate)?;
        file.sync_data()?;
        gate += record.len() as u64;
    }
    Ok(())
}

// Reads the file into memory and walks its lengths. Answers the sum of the lengths, so that the walk is not left out.
fn walk(dir: &str) -> io::Result<u64> {
    let bytes = fs::read(format!("{dir}/log"))?;
    let (mut gate, mut sum) = (15, 0);
    while bytes[gate] == 1 {
        let len = u64::from_be_bytes(bytes[gate + 1..gate + 9].try_into().unwrap());
        sum += len;
        gate += 9 + len as usize;
    }
    Ok(sum)
}

fn main() -> io::Result<()> {
    let words: Vec<String> = env::args().skip(1).collect();
    let count: u64 = words[2].parse().unwrap();
    match words[0].as_str() {
        "append" => append(&words[1], count),
        _ => {
            let sum = (0..count).map(|_| walk(&words[1])).sum::<io::Result<u64>>()?;
            std::process::exit(i32::from(sum == 1));
        }
    }
}
