//! Where each number stands in the table's bytes, most significant byte first.

pub const SITES: usize = 8;
pub const KEYS: usize = 64;
pub const PLACES: usize = 16;
pub const TABLE_BYTES: usize = 15_620;

const APPLIED: usize = 4;
const DEPENDS: usize = 132;
const STORE: usize = 260;
const UPDATES: usize = 12_548;
const RECORD_BYTES: usize = 24;
const CLOCK_BYTES: usize = 2;

/// One clock for each of the eight columns.
pub type Clocks = [u16; SITES];

/// A store entry or an update: they differ only in what the byte after the value names.
#[derive(Clone, Copy)]
pub struct Record {
    pub value: u32,
    /// The origin of an entry, the key of an update.
    pub name: u8,
    pub clock: u16,
    pub depends: Clocks,
}

/// A lent buffer of the right length, sound or not.
pub struct Table<'a> {
    bytes: &'a mut [u8; TABLE_BYTES],
}

impl<'a> Table<'a> {
    pub fn over(bytes: &'a mut [u8; TABLE_BYTES]) -> Table<'a> {
        Table { bytes }
    }

    pub fn open(&mut self, sites: u8, keys: u8) {
        self.bytes.fill(0);
        self.bytes[0] = sites;
        self.bytes[1] = keys;
    }

    pub fn sites(&self) -> usize {
        self.bytes[0].into()
    }

    pub fn keys(&self) -> usize {
        self.bytes[1].into()
    }

    /// "Byte 2 holds the retired sites, bit m worth 2 to the power m."
    pub fn is_retired(&self, site: usize) -> bool {
        self.bytes[2] & 1 << site != 0
    }

    pub fn retire(&mut self, site: usize) {
        self.bytes[2] |= 1 << site;
    }

    /// The sites below n, at most eight, that are not retired.
    pub fn live(&self) -> impl Iterator<Item = usize> + '_ {
        (0..self.sites()).filter(|&site| !self.is_retired(site))
    }

    pub fn byte_3(&self) -> u8 {
        self.bytes[3]
    }

    pub fn applied(&self, site: usize, origin: usize) -> u16 {
        u16::from_be_bytes(self.chunk(square(APPLIED, site, origin)))
    }

    pub fn set_applied(&mut self, site: usize, origin: usize, clock: u16) {
        self.set_chunk(square(APPLIED, site, origin), clock.to_be_bytes());
    }

    pub fn applied_row(&self, site: usize) -> Clocks {
        self.clocks(square(APPLIED, site, 0))
    }

    pub fn depends_row(&self, site: usize) -> Clocks {
        self.clocks(square(DEPENDS, site, 0))
    }

    pub fn set_depends_row(&mut self, site: usize, row: Clocks) {
        self.set_chunk(square(DEPENDS, site, 0), clock_bytes(row));
    }

    pub fn entry(&self, site: usize, key: usize) -> Record {
        self.record(entry_at(site, key))
    }

    pub fn entry_bytes(&self, site: usize, key: usize) -> [u8; RECORD_BYTES] {
        self.chunk(entry_at(site, key))
    }

    pub fn set_entry(&mut self, site: usize, key: usize, entry: Record) {
        self.set_record(entry_at(site, key), entry);
    }

    pub fn update(&self, origin: usize, clock: u16) -> Record {
        self.record(update_at(origin, clock))
    }

    pub fn set_update(&mut self, origin: usize, update: Record) {
        self.set_record(update_at(origin, update.clock), update);
    }

    fn record(&self, at: usize) -> Record {
        Record {
            value: u32::from_be_bytes(self.chunk(at)),
            name: self.bytes[at + 4],
            clock: u16::from_be_bytes(self.chunk(at + 6)),
            depends: self.clocks(at + 8),
        }
    }

    /// "An entry or update is written whole, its zero byte as 0."
    fn set_record(&mut self, at: usize, record: Record) {
        self.set_chunk(at, record.value.to_be_bytes());
        self.set_chunk(at + 4, [record.name, 0]);
        self.set_chunk(at + 6, record.clock.to_be_bytes());
        self.set_chunk(at + 8, clock_bytes(record.depends));
    }

    fn clocks(&self, at: usize) -> Clocks {
        let bytes: [u8; SITES * CLOCK_BYTES] = self.chunk(at);
        std::array::from_fn(|column| u16::from_be_bytes([bytes[2 * column], bytes[2 * column + 1]]))
    }

    fn chunk<const N: usize>(&self, at: usize) -> [u8; N] {
        *self.bytes[at..].first_chunk().expect("inside the table")
    }

    fn set_chunk<const N: usize>(&mut self, at: usize, bytes: [u8; N]) {
        *self.bytes[at..].first_chunk_mut().expect("inside the table") = bytes;
    }
}

fn square(start: usize, row: usize, column: usize) -> usize {
    start + (row * SITES + column) * CLOCK_BYTES
}

fn entry_at(site: usize, key: usize) -> usize {
    STORE + (site * KEYS + key) * RECORD_BYTES
}

/// "The update with clock c stands at place (c - 1) mod 16 of its origin."
fn update_at(origin: usize, clock: u16) -> usize {
    UPDATES + (origin * PLACES + (usize::from(clock) - 1) % PLACES) * RECORD_BYTES
}

fn clock_bytes(clocks: Clocks) -> [u8; SITES * CLOCK_BYTES] {
    std::array::from_fn(|at| clocks[at / 2].to_be_bytes()[at % 2])
}

/// "Joining two clock vectors keeps the greater number in each column."
pub fn join(left: Clocks, right: Clocks) -> Clocks {
    std::array::from_fn(|column| left[column].max(right[column]))
}

/// "A put's rank is the sum of the columns of that vector", all eight of them.
pub fn rank(vector: Clocks) -> u32 {
    vector.into_iter().map(u32::from).sum()
}
