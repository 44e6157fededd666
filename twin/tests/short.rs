//! Document 02's engine with short lists, beside ours. It and the long lists that it agrees with stay at the steps before
//! request (e).

mod session;

use session::{opened, refused, row, sent, stored, Numbers, Session};
use twin::{short, REPLY_BYTES, TABLE_BYTES};

/// The same calls of each engine, by name.
struct Calls {
    put: fn(&mut Session, u64, u64, u32) -> Numbers,
    get: fn(&mut Session, u64, u64) -> Numbers,
    deliver: fn(&mut Session, u64, u64) -> Numbers,
}

const OURS: Calls = Calls { put: Session::put, get: Session::get, deliver: Session::deliver };
const LONG: Calls = Calls { put: Session::long_put, get: Session::long_get, deliver: Session::long_deliver };
const SHORT: Calls = Calls { put: Session::short_put, get: Session::short_get, deliver: Session::short_deliver };

/// Site 1 has got 0's put and put another key; site 2 has got that one and put a third. Site 3 has heard of nothing.
fn chain_of_three(calls: &Calls) -> Session {
    let mut session = opened(4, 3);
    (calls.put)(&mut session, 0, 0, 5);
    (calls.deliver)(&mut session, 1, 0);
    (calls.get)(&mut session, 1, 0);
    (calls.put)(&mut session, 1, 1, 6);
    (calls.deliver)(&mut session, 2, 0);
    (calls.deliver)(&mut session, 2, 1);
    assert_eq!((calls.get)(&mut session, 2, 1), [0, 1, 1, 1, 6]);
    assert_eq!((calls.put)(&mut session, 2, 2, 7), [0, 2, 2, 1, 7]);
    session
}

/// Site 2 holds puts of 0 and 1 and has read nothing: key 0 has 0's second put, key 1 its first, key 2 one of 1's.
fn heard_of_two() -> Session {
    let mut session = opened(3, 4);
    session.short_put(0, 1, 10);
    session.short_put(0, 0, 11);
    session.short_put(1, 2, 12);
    assert_eq!(session.short_drain(2, 903), [0, 0, 0, 3, 7]);
    session
}

#[test]
fn a_put_sends_the_list_and_leaves_only_its_own_pair() {
    let mut session = heard_of_two();
    session.short_get(2, 0);
    session.short_get(2, 2);
    assert_eq!(row(&session, 2), [2, 1, 0, 0, 0, 0, 0, 0]);
    assert_eq!(session.short_put(2, 3, 13), [0, 3, 2, 1, 13]);
    assert_eq!(sent(&session, 2, 1), [2, 1, 0, 0, 0, 0, 0, 0]);
    assert_eq!(stored(&session, 2, 3), [0; 8]);
    assert_eq!(row(&session, 2), [0, 0, 1, 0, 0, 0, 0, 0]);
    // The next one sends that pair alone.
    assert_eq!(session.short_put(2, 3, 14), [0, 3, 2, 2, 14]);
    assert_eq!(sent(&session, 2, 2), [0, 0, 1, 0, 0, 0, 0, 0]);
    assert_eq!(row(&session, 2), [0, 0, 2, 0, 0, 0, 0, 0]);
}

#[test]
fn a_get_or_an_adopt_adds_the_one_pair_that_it_read() {
    for adopts in [false, true] {
        let mut session = heard_of_two();
        // 0's second put had its first for a cause, and the entry says so; the list does not take that on.
        assert_eq!(stored(&session, 2, 0), [1, 0, 0, 0, 0, 0, 0, 0]);
        let mut read = |key, origin, clock, value, row_after: [u16; 3]| {
            let mut expected = session.table.clone();
            let answer = if adopts { session.short_adopt(2, key, origin, clock) } else { session.short_get(2, key) };
            assert_eq!(answer, [0, key as u32, origin as u32, clock as u32, value]);
            for (column, clock) in row_after.into_iter().enumerate() {
                expected[164 + 2 * column..][..2].copy_from_slice(&clock.to_be_bytes());
            }
            assert!(session.table == expected, "key {key}: the list, and nothing else");
        };
        read(3, 0, 0, 0, [0, 0, 0]);
        read(1, 0, 1, 10, [1, 0, 0]);
        read(2, 1, 1, 12, [1, 1, 0]);
        read(0, 0, 2, 11, [2, 1, 0]);
        // "The highest clock for each site."
        read(1, 0, 1, 10, [2, 1, 0]);
    }
}

#[test]
fn a_get_does_not_take_on_the_entrys_vector() {
    let (mut ours, mut short) = (chain_of_three(&OURS), chain_of_three(&SHORT));
    for (session, calls) in [(&mut ours, &OURS), (&mut short, &SHORT)] {
        assert_eq!(stored(session, 2, 1), [1, 0, 0, 0, 0, 0, 0, 0]);
        session.drain(3, 903);
        assert_eq!((calls.get)(session, 3, 1), [0, 1, 1, 1, 6]);
    }
    assert_eq!(row(&ours, 3), [1, 1, 0, 0, 0, 0, 0, 0]);
    assert_eq!(row(&short, 3), [0, 1, 0, 0, 0, 0, 0, 0]);
}

#[test]
fn along_a_chain_of_three_sites_short_has_one_pair_and_ours_two() {
    let (mut ours, mut short) = (chain_of_three(&OURS), chain_of_three(&SHORT));
    assert_eq!(sent(&ours, 2, 1), [1, 1, 0, 0, 0, 0, 0, 0]);
    assert_eq!(sent(&short, 2, 1), [0, 1, 0, 0, 0, 0, 0, 0]);
    // Beside a 10, ours names both that are missing, short the immediate one.
    assert_eq!(ours.deliver(3, 2), [10, 0, 0, 1, 0b11]);
    assert_eq!(short.short_deliver(3, 2), [10, 0, 1, 1, 0b10]);
    // 1's put waits for 0's in both, so 2's does too.
    for (session, calls) in [(&mut ours, &OURS), (&mut short, &SHORT)] {
        assert_eq!((calls.deliver)(session, 3, 1), [10, 0, 0, 1, 1]);
        assert_eq!((calls.deliver)(session, 3, 2)[0], 10);
        assert_eq!((calls.deliver)(session, 3, 0), [0, 0, 0, 1, 5]);
        assert_eq!((calls.deliver)(session, 3, 2)[0], 10);
        assert_eq!((calls.deliver)(session, 3, 1), [0, 1, 1, 1, 6]);
        assert_eq!((calls.deliver)(session, 3, 2), [0, 2, 2, 1, 7]);
    }
}

#[test]
fn a_look_and_a_cold_list_add_nothing_and_a_delivery_neither() {
    let mut session = heard_of_two();
    session.look(2, 0);
    assert_eq!(session.cold(2, 0, 1)[0], 0);
    session.short_put(1, 2, 15);
    assert_eq!(session.short_deliver(2, 1), [0, 2, 1, 2, 15]);
    assert_eq!(row(&session, 2), [0; 8]);
    assert_eq!(stored(&session, 2, 2), [0, 1, 0, 0, 0, 0, 0, 0]);
}

#[test]
fn a_touch_is_its_get_and_its_put() {
    let mut session = heard_of_two();
    session.short_put(0, 2, 0x1234_5800);
    session.short_deliver(2, 0);
    let (mut touched, mut both) = (session.clone(), session);
    assert_eq!(touched.short_touch(2, 2, 9, 1, 1), [0, 2, 2, 1, 0x1234_2800]);
    both.short_get(2, 2);
    assert_eq!(both.short_put(2, 2, 0x1234_2800), [0, 2, 2, 1, 0x1234_2800]);
    assert!(touched.table == both.table);
    assert_eq!(sent(&touched, 2, 1), [3, 0, 0, 0, 0, 0, 0, 0]);
    assert_eq!(row(&touched, 2), [0, 0, 1, 0, 0, 0, 0, 0]);
    // "A refusal undoes the get": 13, for a value that is no record.
    let before = touched.table.clone();
    assert_eq!(touched.short_touch(2, 0, 9, 1, 1), refused(13));
    assert!(touched.table == before);
}

#[test]
fn two_puts_of_one_key_still_cross_and_each_site_keeps_what_came_last() {
    for (calls, at_1) in [(LONG, [0, 0, 0, 1, 5]), (SHORT, [0, 0, 0, 1, 5]), (OURS, [0, 0, 1, 1, 6])] {
        let mut session = opened(2, 1);
        (calls.put)(&mut session, 0, 0, 5);
        (calls.put)(&mut session, 1, 0, 6);
        assert_eq!((calls.deliver)(&mut session, 1, 0), [0, 0, 0, 1, 5]);
        assert_eq!((calls.deliver)(&mut session, 0, 1), [0, 0, 1, 1, 6]);
        assert_eq!(session.look(0, 0), [0, 0, 1, 1, 6]);
        assert_eq!(session.look(1, 0), at_1);
    }
}

#[test]
fn a_put_takes_on_nothing_and_is_stored_with_zeros() {
    for calls in [LONG, SHORT] {
        let mut session = opened(2, 1);
        (calls.put)(&mut session, 0, 0, 5);
        (calls.deliver)(&mut session, 1, 0);
        // It overwrites 0's put, which site 1 has not got.
        (calls.put)(&mut session, 1, 0, 6);
        assert_eq!((sent(&session, 1, 1), stored(&session, 1, 0)), ([0; 8], [0; 8]));
        // The next one sends the pair of the first, and is stored with zeros all the same.
        (calls.put)(&mut session, 1, 0, 7);
        assert_eq!((sent(&session, 1, 2), stored(&session, 1, 0)), ([0, 1, 0, 0, 0, 0, 0, 0], [0; 8]));
    }
}

/// Each short call and its namesake, with the same numbers.
type Pair = fn(&mut Session, [u64; 5]) -> Numbers;
const NAMESAKES: [(Pair, Pair); 6] = [
    (|session, [s, x, v, ..]| session.short_put(s, x, v as u32), |session, [s, x, v, ..]| session.put(s, x, v as u32)),
    (|session, [s, x, ..]| session.short_get(s, x), |session, [s, x, ..]| session.get(s, x)),
    (|session, [s, x, o, c, _]| session.short_adopt(s, x, o, c), |session, [s, x, o, c, _]| session.adopt(s, x, o, c)),
    (|session, [s, o, ..]| session.short_deliver(s, o), |session, [s, o, ..]| session.deliver(s, o)),
    (|session, [s, b, ..]| session.short_drain(s, b), |session, [s, b, ..]| session.drain(s, b)),
    (
        |session, [s, x, now, by, tier]| session.short_touch(s, x, now, by, tier),
        |session, [s, x, now, by, tier]| session.touch(s, x, now, by, tier),
    ),
];

#[test]
fn on_one_table_every_call_answers_as_its_namesake() {
    let fresh = opened(2, 2);
    let (mut full, mut spent, mut unsound, mut cut) = (fresh.clone(), fresh.clone(), fresh.clone(), fresh.clone());
    let mut retired = heard_of_two();
    for value in 0..16 {
        full.short_put(0, 1, value);
    }
    spent.table[4..6].fill(0xFF);
    spent.table[20..22].fill(0xFF);
    unsound.table[3] = 1;
    retired.retire(1);
    cut.table.truncate(TABLE_BYTES - 1);
    let numbers = [0, 1, 2, 3, 255, 256, 65_535, 65_536, 1 << 32, u64::MAX];
    let mut met = [false; 18];
    for start in [fresh, heard_of_two(), chain_of_three(&SHORT), full, spent, retired, unsound, cut] {
        for (short, ours) in NAMESAKES {
            for at in 0..numbers.len().pow(4) {
                let number = |place: u32| numbers[at / numbers.len().pow(place) % numbers.len()];
                let given = [number(0), number(1), number(2), number(3), number(2)];
                let (mut one, mut other) = (start.clone(), start.clone());
                let answer = short(&mut one, given);
                assert_eq!(answer, ours(&mut other, given), "{given:?}");
                met[answer[0] as usize] = true;
                if answer[0] != 0 && answer[0] != 11 {
                    assert!(one.table == start.table, "a refusal keeps all bytes");
                }
            }
        }
    }
    let codes: Vec<usize> = (0..18).filter(|&code| met[code]).collect();
    assert_eq!(codes, [0, 1, 2, 4, 5, 6, 7, 8, 9, 10, 11, 13, 14, 15, 16]);
}

#[test]
fn a_reply_of_another_length_is_1_and_14_comes_before() {
    let mut session = opened(2, 2);
    let before = session.table.clone();
    let mut reply = [0xA5; REPLY_BYTES + 1];
    for length in [0, 11, 13] {
        let (table, reply) = (&mut session.table[..], &mut reply[..length]);
        assert_eq!(short::put(0, 0, 0, table, reply), 1);
        assert_eq!(short::get(0, 0, table, reply), 1);
        assert_eq!(short::adopt(0, 0, 0, 0, table, reply), 1);
        assert_eq!(short::deliver(0, 1, table, reply), 1);
        assert_eq!(short::drain(0, 1, table, reply), 1);
        assert_eq!(short::touch(0, 0, 0, 0, 0, table, reply), 1);
        assert_eq!(short::touch(0, 0, 0, 4, 0, table, reply), 14);
    }
    assert_eq!((&reply, &session.table), (&[0xA5; REPLY_BYTES + 1], &before));
}

/// Site 1 has got 0's put and puts twice, with this put; site 2 gets the second of them, and puts, with our calls. Site 3
/// has heard of nothing.
fn second_put_of_site_1_by(put: fn(&mut Session, u64, u64, u32) -> Numbers) -> Session {
    let mut session = opened(4, 4);
    session.put(0, 0, 5);
    session.deliver(1, 0);
    session.get(1, 0);
    put(&mut session, 1, 1, 6);
    put(&mut session, 1, 2, 7);
    session.drain(2, 903);
    session.get(2, 2);
    session.put(2, 3, 8);
    session
}

#[test]
fn on_a_table_of_both_kinds_of_calls_ours_no_longer_name_all_that_is_missing() {
    assert_eq!(second_put_of_site_1_by(Session::put).deliver(3, 2), [10, 0, 0, 1, 0b11]);
    assert_eq!(second_put_of_site_1_by(Session::short_put).deliver(3, 2), [10, 0, 1, 2, 0b10]);
}

#[test]
fn on_a_table_of_both_kinds_of_calls_a_put_can_lose_to_the_one_it_overwrote() {
    let put: fn(&mut Session, u64, u64, u32) -> Numbers = Session::put;
    for (put, at_2) in [(put, [0, 0, 1, 1, 7]), (Session::short_put, [0, 0, 0, 2, 6])] {
        let mut session = opened(3, 1);
        session.put(0, 0, 5);
        session.put(0, 0, 6);
        session.drain(1, 903);
        put(&mut session, 1, 0, 7);
        session.drain(2, 903);
        assert_eq!(session.look(1, 0), [0, 0, 1, 1, 7]);
        assert_eq!(session.look(2, 0), at_2);
    }
}
