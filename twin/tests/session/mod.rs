//! A table, and its calls with their replies read as the five numbers. Each test uses its part.
#![allow(dead_code)]

use twin::{
    adopt, cold, deliver, drain, get, long, look, open, put, retire, short, touch, LIST_BYTES, REPLY_BYTES, TABLE_BYTES,
};

#[derive(Clone)]
pub struct Session {
    pub table: Vec<u8>,
    pub list: [u8; LIST_BYTES],
}

pub type Numbers = [u32; 5];

pub fn opened(sites: u64, keys: u64) -> Session {
    let mut session = Session { table: vec![0xA5; TABLE_BYTES], list: [0xA5; LIST_BYTES] };
    assert_eq!(session.open(sites, keys), [0; 5]);
    session
}

impl Session {
    fn call(&mut self, call: impl FnOnce(&mut [u8], &mut [u8]) -> u32) -> Numbers {
        let mut reply = [0xA5; REPLY_BYTES];
        let code = call(&mut self.table, &mut reply);
        let [told, key, site, zero, clock_high, clock_low, zero_2, zero_3, value @ ..] = reply;
        assert_eq!([code, 0, 0, 0], [told, zero, zero_2, zero_3].map(u32::from));
        let clock = u16::from_be_bytes([clock_high, clock_low]);
        [code, key.into(), site.into(), clock.into(), u32::from_be_bytes(value)]
    }

    pub fn open(&mut self, sites: u64, keys: u64) -> Numbers {
        self.call(|table, reply| open(sites, keys, table, reply))
    }

    pub fn put(&mut self, site: u64, key: u64, value: u32) -> Numbers {
        self.call(|table, reply| put(site, key, value, table, reply))
    }

    pub fn get(&mut self, site: u64, key: u64) -> Numbers {
        self.call(|table, reply| get(site, key, table, reply))
    }

    pub fn look(&mut self, site: u64, key: u64) -> Numbers {
        self.call(|table, reply| look(site, key, table, reply))
    }

    pub fn adopt(&mut self, site: u64, key: u64, origin: u64, clock: u64) -> Numbers {
        self.call(|table, reply| adopt(site, key, origin, clock, table, reply))
    }

    pub fn deliver(&mut self, site: u64, origin: u64) -> Numbers {
        self.call(|table, reply| deliver(site, origin, table, reply))
    }

    pub fn drain(&mut self, site: u64, budget: u64) -> Numbers {
        self.call(|table, reply| drain(site, budget, table, reply))
    }

    pub fn retire(&mut self, site: u64) -> Numbers {
        self.call(|table, reply| retire(site, table, reply))
    }

    pub fn touch(&mut self, site: u64, key: u64, now: u64, toucher: u64, tier: u64) -> Numbers {
        self.call(|table, reply| touch(site, key, now, toucher, tier, table, reply))
    }

    pub fn short_put(&mut self, site: u64, key: u64, value: u32) -> Numbers {
        self.call(|table, reply| short::put(site, key, value, table, reply))
    }

    pub fn short_get(&mut self, site: u64, key: u64) -> Numbers {
        self.call(|table, reply| short::get(site, key, table, reply))
    }

    pub fn short_adopt(&mut self, site: u64, key: u64, origin: u64, clock: u64) -> Numbers {
        self.call(|table, reply| short::adopt(site, key, origin, clock, table, reply))
    }

    pub fn short_deliver(&mut self, site: u64, origin: u64) -> Numbers {
        self.call(|table, reply| short::deliver(site, origin, table, reply))
    }

    pub fn short_drain(&mut self, site: u64, budget: u64) -> Numbers {
        self.call(|table, reply| short::drain(site, budget, table, reply))
    }

    pub fn short_touch(&mut self, site: u64, key: u64, now: u64, toucher: u64, tier: u64) -> Numbers {
        self.call(|table, reply| short::touch(site, key, now, toucher, tier, table, reply))
    }

    pub fn long_put(&mut self, site: u64, key: u64, value: u32) -> Numbers {
        self.call(|table, reply| long::put(site, key, value, table, reply))
    }

    pub fn long_get(&mut self, site: u64, key: u64) -> Numbers {
        self.call(|table, reply| long::get(site, key, table, reply))
    }

    pub fn long_deliver(&mut self, site: u64, origin: u64) -> Numbers {
        self.call(|table, reply| long::deliver(site, origin, table, reply))
    }

    pub fn cold(&mut self, site: u64, now: u64, threshold: u64) -> Numbers {
        let mut list = self.list;
        let answer = self.call(|table, reply| cold(site, now, threshold, table, &mut list, reply));
        self.list = list;
        answer
    }

    /// The list, as the answer counts it; what follows is zero.
    pub fn listed(&self, answer: Numbers) -> &[u8] {
        let (listed, rest) = self.list.split_at(answer[1] as usize);
        assert!(rest.iter().all(|&byte| byte == 0));
        listed
    }
}

pub type Clocks = [u16; 8];

fn clocks(session: &Session, at: usize) -> Clocks {
    std::array::from_fn(|column| {
        u16::from_be_bytes([session.table[at + 2 * column], session.table[at + 2 * column + 1]])
    })
}

/// What a site depends on.
pub fn row(session: &Session, site: usize) -> Clocks {
    clocks(session, 132 + 16 * site)
}

/// The vector of an origin's update, of its first sixteen.
pub fn sent(session: &Session, origin: usize, clock: usize) -> Clocks {
    clocks(session, 12_548 + 24 * (16 * origin + clock - 1) + 8)
}

/// The vector of an entry.
pub fn stored(session: &Session, site: usize, key: usize) -> Clocks {
    clocks(session, 260 + 24 * (64 * site + key) + 8)
}

pub fn refused(code: u32) -> Numbers {
    [code, 0, 0, 0, 0]
}
