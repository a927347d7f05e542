//! The library to link, as include/reckonferry.h declares it, with the buffers that a caller lends.

mod raw {
    #[link(name = "reckonferry", kind = "static")]
    extern "C" {
        pub fn reckonferry_read_table(
            words: *const u64,
            words_len: usize,
            rows: *mut u64,
            rows_len: usize,
            refs: *mut u64,
            refs_len: usize,
            names: *mut u8,
            names_len: usize,
            witness: *mut u64,
            witness_len: usize,
            answer: *mut u64,
            answer_len: usize,
        );
        pub fn reckonferry_read_layout(
            value: *const u8,
            value_len: usize,
            answer: *mut u64,
            answer_len: usize,
            layout: *mut u64,
            layout_len: usize,
        ) -> usize;
    }
}

pub struct Table {
    rows: Vec<u64>,
    refs: Vec<u64>,
    names: Vec<u8>,
    witness: Vec<u64>,
    answer: [u64; 3],
}

impl Table {
    /// Room that a caller knows to be enough before reading: the entries that the stream states, and no more references or name
    /// bytes than there are words.
    pub fn fitting(words: &[u64]) -> Self {
        let stated = words.get(2).map_or(0, |n| *n.min(&4096) as usize);
        Table::with(stated, words.len())
    }

    pub fn with(entries: usize, most: usize) -> Self {
        Table { rows: vec![0; 8 * entries], refs: vec![0; most], names: vec![0; most], witness: vec![0; entries], answer: [0; 3] }
    }

    /// The entries of the table, where it is accepted.
    pub fn read(&mut self, words: &[u64]) -> Option<usize> {
        unsafe {
            raw::reckonferry_read_table(
                words.as_ptr(),
                words.len(),
                self.rows.as_mut_ptr(),
                self.rows.len(),
                self.refs.as_mut_ptr(),
                self.refs.len(),
                self.names.as_mut_ptr(),
                self.names.len(),
                self.witness.as_mut_ptr(),
                self.witness.len(),
                self.answer.as_mut_ptr(),
                self.answer.len(),
            );
        }
        (self.answer[0] == 0).then_some(self.answer[1] as usize)
    }

    /// How many types the original builds for the table that was read: one for each entry, and again for each use of it.
    pub fn built(&self, entries: usize) -> u128 {
        let mut order: Vec<usize> = (0..entries).collect();
        order.sort_by_key(|e| self.witness[*e]);
        let mut size = vec![0u128; entries];
        for e in order {
            let (first, count) = (self.rows[8 * e + 3] as usize, self.rows[8 * e + 4] as usize);
            size[e] = self.refs[first..first + count].iter().fold(1, |n, r| n.saturating_add(size[*r as usize]));
        }
        size.into_iter().fold(0, u128::saturating_add)
    }
}

pub struct Layout {
    words: [u64; 461],
    answer: [u64; 3],
}

impl Layout {
    pub fn new() -> Self {
        Layout { words: [0; 461], answer: [0; 3] }
    }

    /// Whether the string is taken.
    pub fn read(&mut self, value: &str) -> bool {
        unsafe {
            raw::reckonferry_read_layout(
                value.as_ptr(),
                value.len(),
                self.answer.as_mut_ptr(),
                self.answer.len(),
                self.words.as_mut_ptr(),
                self.words.len(),
            );
        }
        self.answer[0] == 0
    }
}
