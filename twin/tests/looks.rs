//! Document 02's look and adopt, at their edges.

mod session;

use session::{opened, refused, Numbers, Session};
use twin::{adopt, look, REPLY_BYTES, TABLE_BYTES};

/// Numbers that are 0 or 1 if they are cut to 8, 16 or 32 bits, or nothing at all.
const HUGE: [u64; 7] = [1 << 8, 1 << 8 | 1, 1 << 16, 1 << 16 | 1, 1 << 32, 1 << 32 | 1, u64::MAX];

/// Site 1 has 0's put of key 0, and key 1 was never written.
fn handed() -> Session {
    let mut session = opened(3, 2);
    session.put(0, 0, 7);
    assert_eq!(session.deliver(1, 0), [0, 0, 0, 1, 7]);
    session
}

/// Site 2 has a put of site 1, which had got 0's.
fn handed_on() -> Session {
    let mut session = handed();
    session.get(1, 0);
    session.put(1, 1, 9);
    session.drain(2, 903);
    session
}

/// What the call answers; the table keeps every byte.
fn unchanged(session: &mut Session, call: impl FnOnce(&mut Session) -> Numbers) -> Numbers {
    let before = session.table.clone();
    let answer = call(session);
    assert!(session.table == before, "a byte of the table has changed");
    answer
}

#[test]
fn a_look_answers_as_get_and_changes_nothing() {
    let mut session = handed();
    assert_eq!(unchanged(&mut session, |session| session.look(1, 0)), [0, 0, 0, 1, 7]);
    assert_eq!(unchanged(&mut session, |session| session.look(1, 1)), [0, 1, 0, 0, 0]);
    assert_eq!(unchanged(&mut session, |session| session.look(2, 0)), [0, 0, 0, 0, 0]);
    // The get would change the table.
    let before = session.table.clone();
    assert_eq!(session.get(1, 0), [0, 0, 0, 1, 7]);
    assert_ne!(session.table, before);
}

#[test]
fn what_was_looked_at_is_not_waited_for_and_what_was_adopted_is() {
    for (adopts, answer) in [(false, [0, 1, 1, 1, 9]), (true, [10, 0, 0, 1, 1])] {
        let mut session = handed();
        session.look(1, 0);
        if adopts {
            assert_eq!(session.adopt(1, 0, 0, 1), [0, 0, 0, 1, 7]);
        }
        session.put(1, 1, 9);
        assert_eq!(session.deliver(2, 1), answer);
    }
}

#[test]
fn an_adopt_takes_on_the_entrys_vector_and_its_pair() {
    let mut session = handed_on();
    let row = 132 + 16 * 2;
    assert_eq!(session.table[row..row + 16], [0; 16]);
    let before = session.clone();
    assert_eq!(session.adopt(2, 1, 1, 1), [0, 1, 1, 1, 9]);
    assert_eq!(session.table[row..row + 16], [&[0, 1, 0, 1][..], &[0; 12]].concat());
    // And changes nothing else.
    session.table[row..row + 16].fill(0);
    assert_eq!(session.table, before.table);
    // A greater number stays.
    session.table[row..row + 16].fill(9);
    unchanged(&mut session, |session| session.adopt(2, 1, 1, 1));
}

#[test]
fn a_get_is_a_look_and_the_adopt_of_what_it_answered() {
    for start in [opened(1, 1), handed(), handed_on()] {
        for (site, key) in [(0, 0), (0, 1), (1, 0), (1, 1), (2, 0), (2, 1), (3, 0), (0, 2), (u64::MAX, 1 << 32)] {
            let (mut got, mut both) = (start.clone(), start.clone());
            let answer = got.get(site, key);
            let looked = both.look(site, key);
            assert_eq!(looked, answer);
            assert_eq!(both.adopt(site, key, looked[2].into(), looked[3].into()), answer);
            assert_eq!(both.table, got.table);
        }
    }
}

#[test]
fn another_origin_or_clock_is_15() {
    let mut session = handed();
    for (key, origin, clock) in [(0, 0, 2), (0, 0, 0), (0, 1, 1), (0, 2, 1), (0, 1, 0), (1, 0, 1), (1, 1, 0), (1, 2, 0)]
    {
        assert_eq!(unchanged(&mut session, |session| session.adopt(1, key, origin, clock)), refused(15));
    }
    for clock in HUGE {
        for key in [0, 1] {
            assert_eq!(unchanged(&mut session, |session| session.adopt(1, key, 0, clock)), refused(15));
        }
    }
    // At site 2 nothing has come yet: the pair is not that of any entry there.
    assert_eq!(unchanged(&mut session, |session| session.adopt(2, 0, 0, 1)), refused(15));
}

#[test]
fn an_entry_that_was_written_again_is_15() {
    let mut session = handed();
    session.look(1, 0);
    session.put(0, 0, 8);
    assert_eq!(session.adopt(1, 0, 0, 1), [0, 0, 0, 1, 7]);
    session.deliver(1, 0);
    assert_eq!(unchanged(&mut session, |session| session.adopt(1, 0, 0, 1)), refused(15));
    assert_eq!(session.adopt(1, 0, 0, 2), [0, 0, 0, 2, 8]);
    // By another site, with the same clock.
    session.put(1, 0, 9);
    assert_eq!(session.adopt(1, 0, 0, 2), refused(15));
    assert_eq!(session.adopt(1, 0, 1, 1), [0, 0, 1, 1, 9]);
    // By its own site, with the same value.
    session.put(1, 0, 9);
    assert_eq!(session.adopt(1, 0, 1, 1), refused(15));
}

#[test]
fn adopting_0_0_of_a_never_written_key_changes_nothing() {
    let mut session = handed();
    assert_eq!(unchanged(&mut session, |session| session.adopt(1, 1, 0, 0)), [0, 1, 0, 0, 0]);
    assert_eq!(unchanged(&mut session, |session| session.adopt(2, 0, 0, 0)), [0, 0, 0, 0, 0]);
}

#[test]
fn four_of_either_name_then_six_then_fifteen() {
    let mut session = opened(2, 2);
    assert_eq!(session.look(2, 2), refused(4));
    assert_eq!(session.look(1, 2), refused(6));
    assert_eq!(session.adopt(2, 2, 1, 1), refused(4));
    assert_eq!(session.adopt(1, 2, 2, 1), refused(4));
    assert_eq!(session.adopt(1, 2, 1, 1), refused(6));
    assert_eq!(session.adopt(1, 1, 1, 1), refused(15));
    for huge in HUGE {
        assert_eq!(session.look(huge, 0), refused(4));
        assert_eq!(session.look(0, huge), refused(6));
        assert_eq!(session.adopt(huge, 0, 0, 0), refused(4));
        assert_eq!(session.adopt(0, 0, huge, 0), refused(4));
        assert_eq!(session.adopt(0, huge, 0, 0), refused(6));
    }
}

#[test]
fn one_and_two_before_them() {
    let mut session = opened(2, 2);
    session.table[0] = 9;
    assert_eq!(session.look(9, 9), refused(2));
    assert_eq!(session.adopt(9, 9, 9, 9), refused(2));
    let before = session.table.clone();
    let mut reply = [0xA5; REPLY_BYTES + 1];
    for length in [0, 11, 13] {
        assert_eq!(look(0, 0, &mut session.table, &mut reply[..length]), 1);
        assert_eq!(adopt(0, 0, 0, 0, &mut session.table, &mut reply[..length]), 1);
    }
    assert_eq!((&reply, &session.table), (&[0xA5; REPLY_BYTES + 1], &before));
    session.table.truncate(TABLE_BYTES - 1);
    assert_eq!(session.look(9, 9), refused(1));
    assert_eq!(session.adopt(9, 9, 9, 9), refused(1));
}
