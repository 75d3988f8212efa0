// What the program `calls` is told, and the lines by which it answers as the reference computes them.
#![allow(dead_code)] // each test uses a part

use crate::feed::{Key, Pair};
use crate::reference::{self, Counts, Form, Refusal, Row, GAP_ROW, MINUS, MOST_SEGMENTS, NONE, RECORD, SPREAD_RECORD};

pub const MEMORY_ROWS: usize = MOST_SEGMENTS * GAP_ROW;
pub const MEMORY_RECORDS: usize = 128 * RECORD + 64 * SPREAD_RECORD;
pub const LARGEST_LIST: usize = 16_384;
pub const LARGEST_BATCH: usize = 40_000;
pub const ROOM: usize = 1_024;

#[derive(Clone, Debug)]
pub enum Ask {
    Start(Vec<u32>),
    Judge(Vec<u8>),
    Take(Vec<u8>),
    Gaps { letter: u8, cells: u16 },
    Off { letter: u8 },
    Record { letter: u8, level: usize, key: Key },
    Write { code: [u8; 2], level: usize, number: u32, key: Key, room: u16, values: Vec<u64> },
    Lend { rows: u32, records: u32 },
    List(Vec<u8>),
    Poke { cell: u32, value: u32 },
    Spreads(Vec<u8>),
    Spread { letter: u8, level: usize, pair: Pair },
    WriteSpread { code: [u8; 2], level: usize, number: u32, pair: Pair, room: u16, values: Vec<u64> },
}

fn level_byte(level: usize) -> u8 {
    b'0' + level as u8
}

fn with_length(command: u8, bytes: &[u8]) -> Vec<u8> {
    [&[command], &(bytes.len() as u32).to_be_bytes()[..], bytes].concat()
}

#[rustfmt::skip]
fn writing(command: u8, code: &[u8; 2], level: usize, number: u32, key: &[u8], room: u16, values: &[u64]) -> Vec<u8> {
    let values: Vec<u8> = values.iter().flat_map(|v| v.to_be_bytes()).collect();
    let head = [command, code[0], code[1], level_byte(level)];
    [&head, &number.to_be_bytes()[..], key, &room.to_be_bytes(), &values].concat()
}

impl Ask {
    pub fn bytes(&self) -> Vec<u8> {
        match self {
            Ask::Start(starts) => {
                let numbers = starts.iter().flat_map(|n| n.to_be_bytes());
                [b'S', starts.len() as u8].into_iter().chain(numbers).collect()
            }
            Ask::Judge(batch) => with_length(b'J', batch),
            Ask::Take(batch) => with_length(b'K', batch),
            Ask::Gaps { letter, cells } => [&[b'G', *letter], &cells.to_be_bytes()[..]].concat(),
            Ask::Off { letter } => vec![b'O', *letter],
            Ask::Record { letter, level, key } => [&[b'R', *letter, level_byte(*level)], &key[..]].concat(),
            Ask::Write { code, level, number, key, room, values } => writing(b'W', code, *level, *number, key, *room, values),
            Ask::Lend { rows, records } => [&[b'M'], &rows.to_be_bytes()[..], &records.to_be_bytes()].concat(),
            Ask::List(list) => with_length(b'L', list),
            Ask::Poke { cell, value } => [&[b'P'], &cell.to_be_bytes()[..], &value.to_be_bytes()].concat(),
            Ask::Spreads(spreads) => with_length(b'X', spreads),
            Ask::Spread { letter, level, pair } => [&[b'Q', *letter, level_byte(*level)], &pair[..]].concat(),
            Ask::WriteSpread { code, level, number, pair, room, values } => writing(b'V', code, *level, *number, pair, *room, values),
        }
    }

    // The word that its line begins with; a command that makes no call has none.
    pub fn name(&self) -> &'static str {
        match self {
            Ask::Start(_) => "start",
            Ask::Judge(_) => "judge",
            Ask::Take(_) => "take",
            Ask::Gaps { .. } => "gaps",
            Ask::Off { .. } => "off",
            Ask::Record { .. } => "record",
            Ask::Write { .. } | Ask::WriteSpread { .. } => "write",
            Ask::Spread { .. } => "spread",
            Ask::Lend { .. } | Ask::List(_) | Ask::Poke { .. } | Ask::Spreads(_) => "",
        }
    }

    pub fn is_batch(&self) -> bool {
        matches!(self, Ask::Judge(_) | Ask::Take(_))
    }
}

// A case's name, its contract list, what is asked and the lines that answer it.
pub type Case = (String, Vec<u8>, Vec<Ask>, Vec<String>);

pub fn lines(all: &[&str]) -> Vec<String> {
    all.iter().map(|line| line.to_string()).collect()
}

// What an accepted call answers.
#[derive(Clone)]
pub enum Said {
    Started,
    Judged(Counts),
    Listed { highest: u32, runs: Vec<(u32, u32)> },
    WrittenOff { first: u32, last: u32 },
    Record(&'static Form, Option<Vec<u64>>), // a contract's or a pair's
    Written(Vec<u8>),
}

fn hex(bytes: &[u8]) -> String {
    bytes.iter().map(|b| format!("{b:02x}")).collect()
}

fn text(value: u64, row: Row) -> String {
    match row {
        _ if value == NONE => "-".into(),
        Row::Difference if value & MINUS != 0 => format!("-{}", value & !MINUS),
        _ => value.to_string(),
    }
}

// The number of an update, of a contract's also its session, and what is told of it.
fn numbers(form: &Form, values: &[u64]) -> String {
    let (front, told) = values.split_at(form.front());
    let told = told.iter().zip(form.told()).map(|(&value, &(row, _))| text(value, row));
    front.iter().map(u64::to_string).chain(told).collect::<Vec<String>>().join(" ")
}

impl Said {
    // Behind the call's name on its line.
    fn words(&self) -> String {
        match self {
            Said::Started => "ok".into(),
            Said::Judged(Counts { taken, old, heartbeats, compared }) => format!("ok {taken} {old} {heartbeats} {compared}"),
            Said::Listed { highest, runs } => {
                let each: String = runs.iter().map(|(first, last)| format!(" {first}-{last}")).collect();
                format!("ok {highest} {}{each}", runs.len())
            }
            Said::WrittenOff { first, last } => format!("ok {first} {last}"),
            Said::Record(_, None) => "none".into(),
            Said::Record(form, Some(values)) => format!("ok {}", numbers(form, values)),
            Said::Written(message) => format!("ok {} {}", message.len(), hex(message)),
        }
    }
}

// The same of a refusal; that of a batch ends with the keys compared, as an accepted batch's line does.
fn refused(ask: &Ask, refusal: &Refusal) -> String {
    let Refusal { number, message, row, cells, compared } = refusal;
    let numbers = format!("refused {number} {message} {row} {cells}");
    if ask.is_batch() { format!("{numbers} {compared}") } else { numbers }
}

// The test bench's memory and what of it is lent.
#[derive(Clone)]
pub struct Bench {
    pub list: Vec<u8>,
    pub spreads: Vec<u8>,
    pub rows: Vec<u32>,
    pub records: Vec<u64>,
    pub lent_rows: usize,
    pub lent_records: usize,
}

// The spread list that stands beside a list until one is handed over.
fn spreads_beside(list: &[u8]) -> Vec<u8> {
    reference::no_spreads(list, usize::MAX).unwrap_or_default()
}

impl Bench {
    // With the file `contracts`, if there is one.
    pub fn new(contracts: Option<&[u8]>) -> Bench {
        let list = contracts.filter(|list| list.len() <= LARGEST_LIST).unwrap_or(&[]).to_vec();
        let (spreads, rows, records) = (spreads_beside(&list), vec![0; MEMORY_ROWS], vec![0; MEMORY_RECORDS]);
        Bench { list, spreads, rows, records, lent_rows: MEMORY_ROWS, lent_records: MEMORY_RECORDS }
    }

    // The line that answers a call; None for a command that makes none.
    pub fn line(&mut self, ask: &Ask) -> Option<String> {
        let words = match self.answer(ask) {
            Ok(said) => said?.words(),
            Err(refusal) => refused(ask, &refusal),
        };
        Some(format!("{} {words}", ask.name()))
    }

    // What the reference answers; None to a command that makes no call.
    pub fn answer(&mut self, ask: &Ask) -> Result<Option<Said>, Refusal> {
        let (list, spreads) = (&self.list[..], &self.spreads[..]);
        let (rows, records) = (&mut self.rows[..self.lent_rows], &mut self.records[..self.lent_records]);
        let sum = reference::sum_by_bits;
        Ok(Some(match ask {
            Ask::Start(starts) => reference::start(list, spreads, starts, rows, records).map(|()| Said::Started)?,
            Ask::Judge(batch) => Said::Judged(reference::judge(sum, list, spreads, rows, records, batch)?),
            Ask::Take(batch) => Said::Judged(reference::take(sum, list, spreads, rows, records, batch)?),
            Ask::Gaps { letter, cells } => {
                let (highest, runs) = reference::list_gaps(list, spreads, rows, records, *letter, *cells as usize)?;
                Said::Listed { highest, runs }
            }
            Ask::Off { letter } => {
                let (first, last) = reference::write_off(list, spreads, rows, records, *letter)?;
                Said::WrittenOff { first, last }
            }
            Ask::Record { letter, level, key } => {
                Said::Record(reference::of_contract(*letter, *level), reference::read_record(list, spreads, rows, records, *letter, key, *level)?)
            }
            Ask::Spread { letter, level, pair } => {
                Said::Record(reference::of_pair(*level), reference::read_spread(list, spreads, rows, records, *letter, pair, *level)?)
            }
            Ask::WriteSpread { code, level, number, pair, room, values } => {
                Said::Written(reference::write_spread(*code, *level, *number, pair, values, (*room as usize).min(ROOM))?)
            }
            Ask::Write { code, level, number, key, room, values } => {
                let values = reference::readings(reference::of_contract(code[0], *level), values);
                Said::Written(reference::write_message(*code, *level, *number, key, &values, (*room as usize).min(ROOM))?)
            }
            Ask::Lend { rows, records } => {
                self.lent_rows = (*rows as usize).min(MEMORY_ROWS);
                self.lent_records = (*records as usize).min(MEMORY_RECORDS);
                return Ok(None);
            }
            Ask::List(list) => {
                self.spreads = spreads_beside(list);
                self.list = list.clone();
                return Ok(None);
            }
            Ask::Spreads(spreads) => {
                self.spreads = spreads.clone();
                return Ok(None);
            }
            Ask::Poke { cell, value } => {
                if let Some(at) = self.rows.get_mut(*cell as usize) {
                    *at = *value;
                }
                return Ok(None);
            }
        }))
    }
}
