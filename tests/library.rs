// The compiled box as a host links it (target/staticlib/libhost.a), each call with slices for its pointers and lengths.
// Answers the refusal's number, 0 for accepted, and the four numbers of `answer`.
#![allow(dead_code)] // each user needs a part

pub type Answer = [u64; 4];
pub type Values = [u64; 35];

#[rustfmt::skip]
extern "C" {
    fn quotebox_start(list: *const u8, list_length: usize, spreads: *const u8, spreads_length: usize, starts: *const u32, starts_length: usize,
        rows: *mut u32, rows_length: usize, records: *mut u64, records_length: usize, answer: *mut Answer) -> u32;
    fn quotebox_judge(list: *const u8, list_length: usize, spreads: *const u8, spreads_length: usize, rows: *const u32, rows_length: usize,
        records: *const u64, records_length: usize, batch: *const u8, batch_length: usize, answer: *mut Answer) -> u32;
    fn quotebox_take(list: *const u8, list_length: usize, spreads: *const u8, spreads_length: usize, rows: *mut u32, rows_length: usize,
        records: *mut u64, records_length: usize, batch: *const u8, batch_length: usize, answer: *mut Answer) -> u32;
    fn quotebox_list_gaps(list: *const u8, list_length: usize, spreads: *const u8, spreads_length: usize, rows: *const u32, rows_length: usize,
        records: *const u64, records_length: usize, letter: u8, cells: *mut u32, cells_length: usize, answer: *mut Answer) -> u32;
    fn quotebox_write_off(list: *const u8, list_length: usize, spreads: *const u8, spreads_length: usize, rows: *mut u32, rows_length: usize,
        records: *const u64, records_length: usize, letter: u8, answer: *mut Answer) -> u32;
    fn quotebox_read_level1(list: *const u8, list_length: usize, spreads: *const u8, spreads_length: usize, rows: *const u32, rows_length: usize,
        records: *const u64, records_length: usize, letter: u8, key: *const [u8; 39], values: *mut Values, answer: *mut Answer) -> u32;
    fn quotebox_read_level2(list: *const u8, list_length: usize, spreads: *const u8, spreads_length: usize, rows: *const u32, rows_length: usize,
        records: *const u64, records_length: usize, letter: u8, key: *const [u8; 39], values: *mut Values, answer: *mut Answer) -> u32;
    fn quotebox_read_spread1(list: *const u8, list_length: usize, spreads: *const u8, spreads_length: usize, rows: *const u32, rows_length: usize,
        records: *const u64, records_length: usize, letter: u8, pair: *const [u8; 78], values: *mut Values, answer: *mut Answer) -> u32;
    fn quotebox_read_spread2(list: *const u8, list_length: usize, spreads: *const u8, spreads_length: usize, rows: *const u32, rows_length: usize,
        records: *const u64, records_length: usize, letter: u8, pair: *const [u8; 78], values: *mut Values, answer: *mut Answer) -> u32;
    fn quotebox_write_level1(code: *const [u8; 2], number: u32, key: *const [u8; 39], values: *const Values,
        out: *mut u8, out_length: usize, answer: *mut Answer) -> u32;
    fn quotebox_write_level2(code: *const [u8; 2], number: u32, key: *const [u8; 39], values: *const Values,
        out: *mut u8, out_length: usize, answer: *mut Answer) -> u32;
    fn quotebox_write_spread1(code: *const [u8; 2], number: u32, pair: *const [u8; 78], values: *const Values,
        out: *mut u8, out_length: usize, answer: *mut Answer) -> u32;
    fn quotebox_write_spread2(code: *const [u8; 2], number: u32, pair: *const [u8; 78], values: *const Values,
        out: *mut u8, out_length: usize, answer: *mut Answer) -> u32;
    fn quotebox_no_spreads(list: *const u8, list_length: usize, out: *mut u8, out_length: usize, answer: *mut Answer) -> u32;
}

fn told(call: impl FnOnce(*mut Answer) -> u32) -> (u32, Answer) {
    let mut answer = [u64::MAX; 4];
    let number = call(&mut answer);
    (number, answer)
}

// Both lists, as every call but the writers is handed them.
#[derive(Clone, Copy)]
pub struct Lists<'a> {
    pub list: &'a [u8],
    pub spreads: &'a [u8],
}

// Each pointer below comes from a slice or an array that outlives the call, with its own length.
#[rustfmt::skip]
impl Lists<'_> {
    pub fn start(self, starts: &[u32], rows: &mut [u32], records: &mut [u64]) -> (u32, Answer) {
        told(|answer| unsafe {
            quotebox_start(self.list.as_ptr(), self.list.len(), self.spreads.as_ptr(), self.spreads.len(), starts.as_ptr(), starts.len(),
                rows.as_mut_ptr(), rows.len(), records.as_mut_ptr(), records.len(), answer)
        })
    }

    pub fn judge(self, rows: &[u32], records: &[u64], batch: &[u8]) -> (u32, Answer) {
        told(|answer| unsafe {
            quotebox_judge(self.list.as_ptr(), self.list.len(), self.spreads.as_ptr(), self.spreads.len(),
                rows.as_ptr(), rows.len(), records.as_ptr(), records.len(), batch.as_ptr(), batch.len(), answer)
        })
    }

    pub fn take(self, rows: &mut [u32], records: &mut [u64], batch: &[u8]) -> (u32, Answer) {
        told(|answer| unsafe {
            quotebox_take(self.list.as_ptr(), self.list.len(), self.spreads.as_ptr(), self.spreads.len(),
                rows.as_mut_ptr(), rows.len(), records.as_mut_ptr(), records.len(), batch.as_ptr(), batch.len(), answer)
        })
    }

    pub fn list_gaps(self, rows: &[u32], records: &[u64], letter: u8, cells: &mut [u32]) -> (u32, Answer) {
        told(|answer| unsafe {
            quotebox_list_gaps(self.list.as_ptr(), self.list.len(), self.spreads.as_ptr(), self.spreads.len(),
                rows.as_ptr(), rows.len(), records.as_ptr(), records.len(), letter, cells.as_mut_ptr(), cells.len(), answer)
        })
    }

    pub fn write_off(self, rows: &mut [u32], records: &[u64], letter: u8) -> (u32, Answer) {
        told(|answer| unsafe {
            quotebox_write_off(self.list.as_ptr(), self.list.len(), self.spreads.as_ptr(), self.spreads.len(),
                rows.as_mut_ptr(), rows.len(), records.as_ptr(), records.len(), letter, answer)
        })
    }

    pub fn read(self, level: usize, rows: &[u32], records: &[u64], letter: u8, key: &[u8; 39], values: &mut Values) -> (u32, Answer) {
        let read = if level == 1 { quotebox_read_level1 } else { quotebox_read_level2 };
        told(|answer| unsafe {
            read(self.list.as_ptr(), self.list.len(), self.spreads.as_ptr(), self.spreads.len(),
                rows.as_ptr(), rows.len(), records.as_ptr(), records.len(), letter, key, values, answer)
        })
    }

    pub fn read_spread(self, level: usize, rows: &[u32], records: &[u64], letter: u8, pair: &[u8; 78], values: &mut Values) -> (u32, Answer) {
        let read = if level == 1 { quotebox_read_spread1 } else { quotebox_read_spread2 };
        told(|answer| unsafe {
            read(self.list.as_ptr(), self.list.len(), self.spreads.as_ptr(), self.spreads.len(),
                rows.as_ptr(), rows.len(), records.as_ptr(), records.len(), letter, pair, values, answer)
        })
    }
}

pub fn write(level: usize, code: [u8; 2], number: u32, key: &[u8; 39], values: &Values, out: &mut [u8]) -> (u32, Answer) {
    let write = if level == 1 { quotebox_write_level1 } else { quotebox_write_level2 };
    told(|answer| unsafe { write(&code, number, key, values, out.as_mut_ptr(), out.len(), answer) })
}

pub fn write_spread(level: usize, code: [u8; 2], number: u32, pair: &[u8; 78], values: &Values, out: &mut [u8]) -> (u32, Answer) {
    let write = if level == 1 { quotebox_write_spread1 } else { quotebox_write_spread2 };
    told(|answer| unsafe { write(&code, number, pair, values, out.as_mut_ptr(), out.len(), answer) })
}

pub fn no_spreads(list: &[u8], out: &mut [u8]) -> (u32, Answer) {
    told(|answer| unsafe { quotebox_no_spreads(list.as_ptr(), list.len(), out.as_mut_ptr(), out.len(), answer) })
}
