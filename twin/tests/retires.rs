//! Document 02's retirement, at its edges.

mod session;

use session::{opened, refused, Numbers, Session};
use twin::{retire, REPLY_BYTES, TABLE_BYTES};

const ENOUGH: u64 = 903;

/// Numbers that are 0 or 1 if they are cut to 8, 16 or 32 bits, or nothing at all.
const HUGE: [u64; 7] = [1 << 8, 1 << 8 | 1, 1 << 16, 1 << 16 | 1, 1 << 32, 1 << 32 | 1, u64::MAX];

fn retiring(mut session: Session, sites: impl IntoIterator<Item = u64>) -> Session {
    for site in sites {
        assert_eq!(session.retire(site), refused(0));
    }
    session
}

/// Three sites and two keys: 0 has made sixteen puts, of which 1 has applied none and 2 the given number.
fn stopped(of_two: usize) -> Session {
    let mut session = opened(3, 2);
    for clock in 1..=16 {
        assert_eq!(session.put(0, 0, clock), [0, 0, 0, clock, clock]);
    }
    for _ in 0..of_two {
        assert_eq!(session.deliver(2, 0)[0], 0);
    }
    session
}

/// Every call that acts at a site, with a number for whatever else it names: 4 is of the site, of the origin too where
/// there is one; then 5, then 16, then 6.
type Call = fn(&mut Session, u64, u64, u64) -> Numbers;
const AT_A_KEY: [Call; 9] = [
    |session, site, key, _| session.put(site, key, 5),
    |session, site, key, _| session.get(site, key),
    |session, site, key, _| session.look(site, key),
    |session, site, key, _| session.touch(site, key, 0, 1, 0),
    |session, site, key, _| session.short_put(site, key, 5),
    |session, site, key, _| session.short_get(site, key),
    |session, site, key, _| session.short_touch(site, key, 0, 1, 0),
    |session, site, key, _| session.long_put(site, key, 5),
    |session, site, key, _| session.long_get(site, key),
];
const WITH_AN_ORIGIN: [Call; 5] = [
    |session, site, key, origin| session.adopt(site, key, origin, 7),
    |session, site, key, origin| session.short_adopt(site, key, origin, 7),
    |session, site, _, origin| session.deliver(site, origin),
    |session, site, _, origin| session.short_deliver(site, origin),
    |session, site, _, origin| session.long_deliver(site, origin),
];
const OF_A_SITE: [Call; 5] = [
    |session, site, _, _| session.drain(site, 0),
    |session, site, _, _| session.short_drain(site, 0),
    |session, site, _, _| session.drain(site, ENOUGH),
    |session, site, _, _| session.cold(site, 0, 1),
    |session, site, _, _| session.retire(site),
];

#[test]
fn it_answers_zeros_sets_the_bit_and_changes_no_other_byte() {
    let mut session = stopped(3);
    session.put(1, 1, 9);
    let mut bits = 0;
    for site in [1, 0] {
        let mut expected = session.table.clone();
        bits |= 1 << site;
        expected[2] = bits;
        assert_eq!(session.retire(site), refused(0));
        assert!(session.table == expected);
    }
    for site in 0..7 {
        assert_eq!(retiring(opened(8, 1), [site]).table[2], 1 << site);
    }
}

#[test]
fn again_is_16_no_site_4_and_the_last_live_one_17() {
    let mut session = retiring(opened(3, 2), [1]);
    let before = session.table.clone();
    assert_eq!(session.retire(1), refused(16));
    for site in [3, 7, 8].into_iter().chain(HUGE) {
        assert_eq!(session.retire(site), refused(4));
    }
    assert!(session.table == before);
    session = retiring(session, [0]);
    assert_eq!(session.retire(2), refused(17));
    assert_eq!(session.retire(0), refused(16));
    assert_eq!(opened(1, 1).retire(0), refused(17));
    for last in 0..8 {
        let mut session = retiring(opened(8, 1), (0..8).filter(|&site| site != last));
        assert_eq!(session.retire(last), refused(17));
        assert_eq!(session.put(last, 0, 5), [0, 0, last as u32, 1, 5]);
    }
}

#[test]
fn sixteen_at_every_call_of_a_retired_site_after_4_and_5_and_before_6() {
    let mut session = opened(3, 2);
    session.put(0, 0, 5);
    session.put(1, 1, 6);
    let mut session = retiring(session, [1]);
    let before = session.table.clone();
    let mut expect = |call: Call, numbers: [u64; 3], code: u32| {
        let [site, key, origin] = numbers;
        assert_eq!(call(&mut session, site, key, origin), refused(code), "{numbers:?}");
        assert!(session.table == before, "{numbers:?}");
    };
    for call in AT_A_KEY {
        for (site, key, code) in [(1, 0, 16), (1, 1, 16), (1, 2, 16), (1, u64::MAX, 16), (3, 2, 4), (0, 2, 6)] {
            expect(call, [site, key, 0], code);
        }
    }
    for call in WITH_AN_ORIGIN {
        for (origin, code) in [(0, 16), (2, 16), (3, 4), (u64::MAX, 4)] {
            expect(call, [1, 9, origin], code);
        }
    }
    expect(WITH_AN_ORIGIN[0], [1, 9, 1], 16);
    for deliver in &WITH_AN_ORIGIN[2..] {
        expect(*deliver, [1, 0, 1], 5);
    }
    for call in OF_A_SITE {
        expect(call, [1, 0, 0], 16);
        expect(call, [3, 0, 0], 4);
    }
}

#[test]
fn fourteen_one_and_two_come_before_16() {
    let mut session = retiring(opened(2, 2), [1]);
    assert_eq!(session.touch(1, 0, 0, 4, 0), refused(14));
    assert_eq!(session.cold(1, 0, 0), refused(14));
    assert_eq!(session.cold(1, 0, 1), refused(16));
    assert_eq!(session.list, [0xA5; 64]);
    let before = session.table.clone();
    let mut reply = [0xA5; REPLY_BYTES + 1];
    for length in [0, 11, 13] {
        assert_eq!(retire(0, &mut session.table, &mut reply[..length]), 1);
        assert_eq!(retire(1, &mut session.table, &mut reply[..length]), 1);
    }
    assert_eq!((&reply, &session.table), (&[0xA5; REPLY_BYTES + 1], &before));
    session.table[3] = 1;
    assert_eq!(session.retire(1), refused(2));
    assert_eq!(session.put(1, 0, 5), refused(2));
    session.table.truncate(TABLE_BYTES - 1);
    assert_eq!(session.retire(1), refused(1));
}

#[test]
fn sound_means_all_below_n_and_not_all_n() {
    for sites in 1..=8 {
        for bits in 0..=255 {
            let mut session = opened(sites, 1);
            session.table[2] = bits;
            let all = 255 >> (8 - sites);
            for site in 0..sites {
                let answer = match bits {
                    _ if bits & !all != 0 || bits == all => refused(2),
                    _ if bits >> site & 1 == 1 => refused(16),
                    _ => refused(0),
                };
                assert_eq!(session.get(site, 0), answer, "{sites} sites, {bits}");
            }
        }
    }
}

#[test]
fn a_retired_site_no_longer_counts_for_8_and_others_do() {
    let mut session = stopped(0);
    assert_eq!(session.put(0, 0, 17), refused(8));
    let mut session = retiring(session, [1]);
    assert_eq!(session.put(0, 0, 17), refused(8));
    assert_eq!(session.touch(0, 0, 0, 0, 0), refused(8));
    assert_eq!(session.deliver(2, 0), [0, 0, 0, 1, 1]);
    assert_eq!(session.put(0, 0, 17), [0, 0, 0, 17, 17]);
    assert_eq!(session.put(0, 0, 18), refused(8));
    // With no other live site there is always room.
    let mut session = retiring(session, [2]);
    for clock in 18..100 {
        assert_eq!(session.put(0, 0, clock), [0, 0, 0, clock, clock]);
    }
}

#[test]
fn what_only_a_retired_site_lacks_need_not_be_retained() {
    let mut session = stopped(16);
    assert_eq!(session.put(0, 0, 17), refused(8));
    // 1 has applied none of them, and the place of clock 1 is used again.
    let mut session = retiring(session, [1]);
    for clock in 17..=60 {
        assert_eq!(session.put(0, 1, clock), [0, 1, 0, clock, clock]);
        assert_eq!(session.deliver(2, 0), [0, 1, 0, clock, clock]);
    }
    // Every place of 0 may hold anything now, and none may once 2 lacks what stands there.
    session.table[12_548..12_548 + 24 * 16].fill(0xA5);
    assert_eq!(session.get(2, 1), [0, 1, 0, 60, 60]);
    session.put(0, 1, 61);
    session.table[12_548 + 24 * 12] ^= 1;
    assert_eq!(session.get(2, 1)[0], 0);
    session.table[12_548 + 24 * 12 + 7] ^= 1;
    assert_eq!(session.get(2, 1), refused(2));
}

#[test]
fn the_lag_bound_is_of_live_sites_and_the_other_facts_of_all() {
    let applied = |site: usize, origin: usize| 4 + 2 * (8 * site + origin);
    // 17 behind: unsound at a live site, whatever stands in the places.
    let mut session = retiring(stopped(16), [1]);
    session.put(0, 0, 17);
    session.deliver(2, 0);
    assert_eq!(session.get(0, 0), [0, 0, 0, 17, 17]);
    let (mut back, mut ahead, mut entry) = (session.clone(), session.clone(), session.clone());
    back.table[2] = 0;
    assert_eq!(back.get(0, 0), refused(2));
    back.table[2] = 4;
    assert_eq!(back.get(0, 0), refused(2));
    // "Applied[s][o] is at most applied[o][o]", of a retired site too.
    ahead.table[applied(1, 0) + 1] = 18;
    assert_eq!(ahead.get(0, 0), refused(2));
    ahead.table[applied(1, 0) + 1] = 17;
    assert_eq!(ahead.get(0, 0)[0], 0);
    // And its entries are checked.
    entry.table[260 + 24 * 64] = 1;
    assert_eq!(entry.get(0, 0), refused(2));
}

#[test]
fn its_own_undelivered_puts_stay_for_the_others() {
    let mut session = opened(3, 2);
    session.put(0, 0, 5);
    session.deliver(1, 0);
    session.get(1, 0);
    session.put(1, 1, 6);
    session.put(1, 1, 7);
    let mut session = retiring(session, [1]);
    // As before: after their causes, in their order, and each once.
    assert_eq!(session.deliver(2, 1), [10, 0, 0, 1, 1]);
    assert_eq!(session.deliver(2, 0), [0, 0, 0, 1, 5]);
    assert_eq!(session.deliver(2, 1), [0, 1, 1, 1, 6]);
    assert_eq!(session.deliver(2, 1), [0, 1, 1, 2, 7]);
    assert_eq!(session.deliver(2, 1), refused(9));
    assert_eq!(session.drain(0, ENOUGH), [0, 0, 0, 2, 6]);
    for site in [0, 2] {
        assert_eq!(session.get(site, 1), [0, 1, 1, 2, 7]);
    }
    // They are causes as any others.
    session.put(2, 0, 8);
    assert_eq!(session.deliver(0, 2), [0, 0, 2, 1, 8]);
}

#[test]
fn a_put_that_a_live_site_lacks_is_retained_until_it_has_it() {
    let mut session = opened(3, 1);
    for clock in 1..=16 {
        assert_eq!(session.put(1, 0, clock)[0], 0);
    }
    session.drain(0, ENOUGH);
    let mut session = retiring(session, [1]);
    // 1 itself puts no more, so nothing takes their places.
    for clock in 1..=16 {
        assert_eq!(session.deliver(2, 1), [0, 0, 1, clock, clock]);
    }
    assert_eq!(session.deliver(2, 1), refused(9));
}

#[test]
fn drains_of_the_live_sites_leave_their_stores_equal() {
    let mut session = opened(4, 2);
    for (site, key) in [(0, 0), (1, 0), (2, 0), (3, 1), (1, 1), (0, 0)] {
        session.put(site, key, 10 * site as u32 + key as u32);
    }
    session.deliver(2, 3);
    let mut session = retiring(session, [3, 1]);
    for site in [2, 0] {
        assert_eq!(session.drain(site, ENOUGH)[0], 0);
    }
    let store = |site: usize| 260 + 24 * 64 * site..260 + 24 * (64 * site + 2);
    assert!(session.table[store(0)] == session.table[store(2)]);
    assert!(session.table[store(0)] != session.table[store(1)]);
    assert_eq!((session.drain(0, ENOUGH)[3], session.drain(2, ENOUGH)[3]), (0, 0));
}

#[test]
fn opening_again_brings_everyone_back() {
    let mut session = retiring(opened(3, 1), [0, 2]);
    session.open(3, 1);
    for site in 0..3 {
        assert_eq!(session.put(site, 0, 5), [0, 0, site as u32, 1, 5]);
    }
}
