//! Document 02's two sites with one winner, at its edges: what a put takes on and stores, and which deliveries replace.

mod session;

use session::{opened, refused, row, sent, stored, Numbers, Session};

/// What a site holds: the numbers of a look without its code.
fn held(session: &mut Session, site: u64, key: u64) -> [u32; 4] {
    let [code, numbers @ ..] = session.look(site, key);
    assert_eq!(code, 0);
    numbers
}

fn set_clock(session: &mut Session, at: usize, clock: u16) {
    session.table[at..at + 2].copy_from_slice(&clock.to_be_bytes());
}

fn set_clocks(session: &mut Session, at: usize, clocks: [u16; 8]) {
    for (column, clock) in clocks.into_iter().enumerate() {
        set_clock(session, at + 2 * column, clock);
    }
}

/// Site 1 has 0's put of key 0 and has not got it.
fn handed() -> Session {
    let mut session = opened(3, 2);
    session.put(0, 0, 5);
    session.deliver(1, 0);
    session
}

#[test]
fn a_put_takes_on_what_it_overwrites() {
    let mut session = handed();
    assert_eq!(row(&session, 1), [0; 8]);
    assert_eq!(session.put(1, 0, 6), [0, 0, 1, 1, 6]);
    assert_eq!(sent(&session, 1, 1), [1, 0, 0, 0, 0, 0, 0, 0]);
    assert_eq!(row(&session, 1), [1, 1, 0, 0, 0, 0, 0, 0]);
    // So it waits for that.
    assert_eq!(session.deliver(2, 1), [10, 0, 0, 1, 1]);
    session.deliver(2, 0);
    assert_eq!(session.deliver(2, 1), [0, 0, 1, 1, 6]);
    assert_eq!(held(&mut session, 2, 0), [0, 1, 1, 6]);
}

#[test]
fn as_a_get_would_with_the_entrys_vector() {
    let mut session = handed();
    session.put(1, 0, 6);
    session.drain(2, 903);
    assert_eq!(stored(&session, 2, 0), [1, 0, 0, 0, 0, 0, 0, 0]);
    let (mut put, mut both) = (session.clone(), session);
    assert_eq!(put.put(2, 0, 7), [0, 0, 2, 1, 7]);
    both.get(2, 0);
    assert_eq!(both.put(2, 0, 7), [0, 0, 2, 1, 7]);
    assert!(put.table == both.table);
    assert_eq!(sent(&put, 2, 1), [1, 1, 0, 0, 0, 0, 0, 0]);
    // Another key's entry is not taken on, nor anything of a key that was never written.
    let mut other = handed();
    assert_eq!(other.put(1, 1, 6), [0, 1, 1, 1, 6]);
    assert_eq!(sent(&other, 1, 1), [0; 8]);
}

#[test]
fn an_own_put_is_stored_with_its_updates_vector() {
    let mut session = handed();
    for clock in 1..=3 {
        assert_eq!(session.put(1, 0, 6), [0, 0, 1, clock, 6]);
        let vector = [1, clock as u16 - 1, 0, 0, 0, 0, 0, 0];
        assert_eq!(sent(&session, 1, clock as usize), vector);
        assert_eq!(stored(&session, 1, 0), vector);
    }
    // The pair of the put itself is in the row, and not in its vector.
    assert_eq!(row(&session, 1), [1, 3, 0, 0, 0, 0, 0, 0]);
}

#[test]
fn a_touch_is_its_put_since_both_get_first() {
    let mut session = opened(3, 1);
    session.touch(0, 0, 7, 0, 1);
    session.deliver(1, 0);
    let mut put = session.clone();
    let touched = session.touch(1, 0, 9, 1, 2);
    assert_eq!(put.put(1, 0, touched[4]), touched);
    assert!(session.table == put.table);
}

#[test]
fn a_refused_put_has_taken_on_nothing() {
    // Sixteen puts of another key, which site 2 lacks: no room.
    let mut session = handed();
    for _ in 0..16 {
        session.put(1, 1, 6);
    }
    let before = session.table.clone();
    assert_eq!(session.put(1, 0, 6), refused(8));
    assert!(session.table == before);
    // No clock is left.
    let mut session = handed();
    for site in 0..3 {
        set_clock(&mut session, 4 + 16 * site + 2, 65_535);
    }
    let before = session.table.clone();
    assert_eq!(session.put(1, 0, 6), refused(7));
    assert!(session.table == before);
}

/// Two puts of key 0 that have not heard of each other: ranks 1 and 0.
fn one_and_none() -> Session {
    let mut session = opened(2, 1);
    session.put(0, 0, 5);
    session.put(0, 0, 7);
    session.put(1, 0, 6);
    session
}

#[test]
fn a_higher_rank_replaces_and_for_a_lower_one_only_the_count_rises() {
    let mut session = one_and_none();
    let mut expected = session.table.clone();
    expected[4 + 3] = 1; // site 0's count of site 1's puts
    assert_eq!(session.deliver(0, 1), [0, 0, 1, 1, 6]); // answered as any other
    assert!(session.table == expected, "the count, and nothing else");
    assert_eq!(held(&mut session, 0, 0), [0, 0, 2, 7]);
    // Site 1: the first of 0's puts has rank 0 and the lower origin, the second rank 1.
    assert_eq!(session.deliver(1, 0), [0, 0, 0, 1, 5]);
    assert_eq!(held(&mut session, 1, 0), [0, 1, 1, 6]);
    assert_eq!(session.deliver(1, 0), [0, 0, 0, 2, 7]);
    assert_eq!(held(&mut session, 1, 0), [0, 0, 2, 7]);
    assert_eq!(stored(&session, 0, 0), stored(&session, 1, 0));
}

#[test]
fn a_drain_delivers_by_ranks_too() {
    let mut session = one_and_none();
    assert_eq!(session.drain(0, 903), [0, 0, 0, 1, 3]);
    assert_eq!(session.drain(1, 903), [0, 0, 0, 2, 4]);
    for site in [0, 1] {
        assert_eq!(held(&mut session, site, 0), [0, 0, 2, 7]);
    }
}

#[test]
fn of_equal_ranks_the_higher_origin_whichever_comes_later() {
    for (first, second) in [(0, 1), (1, 0)] {
        let mut session = opened(3, 1);
        session.put(0, 0, 5);
        session.put(1, 0, 6);
        session.deliver(2, first);
        session.deliver(2, second);
        assert_eq!(held(&mut session, 2, 0), [0, 1, 1, 6]);
    }
}

#[test]
fn a_key_that_was_never_written_takes_any() {
    let mut session = opened(2, 1);
    session.put(0, 0, 5);
    assert_eq!(session.deliver(1, 0), [0, 0, 0, 1, 5]);
    assert_eq!(held(&mut session, 1, 0), [0, 0, 1, 5]);
    assert_eq!(stored(&session, 1, 0), [0; 8]);
}

/// Whether a delivery to site 1 replaces an entry of this origin and vector, by an update of that origin and vector.
fn replaces(held_origin: u8, held_vector: [u16; 8], origin: usize, vector: [u16; 8]) -> bool {
    let mut session = opened(3, 1);
    let (entry, update) = (260 + 24 * 64, 12_548 + 24 * (16 * origin + 65_534 % 16));
    // A sound table that no calls from opening leave: whatever the vector, nothing is missing at site 1.
    for column in 0..8 {
        for site in 0..3 {
            set_clock(&mut session, 4 + 2 * (8 * site + column), 65_535);
        }
    }
    set_clock(&mut session, 4 + 2 * (8 + origin), 65_534);
    for (at, name, clock) in [(entry, held_origin, 1), (update, 0, 65_535)] {
        session.table[at + 4] = name;
        set_clock(&mut session, at + 6, clock);
    }
    set_clocks(&mut session, entry + 8, held_vector);
    set_clocks(&mut session, update + 8, vector);
    assert_eq!(session.deliver(1, origin as u64), [0, 0, origin as u32, 65_535, 0]);
    let [_, told_origin, told_clock, _] = held(&mut session, 1, 0);
    let replaced = told_clock == 65_535;
    assert_eq!(told_origin, if replaced { origin as u32 } else { held_origin.into() });
    assert_eq!(stored(&session, 1, 0), if replaced { vector } else { held_vector });
    replaced
}

#[test]
fn a_rank_is_the_sum_of_all_eight_columns() {
    let none = [0; 8];
    for column in 0..8 {
        let mut three = none;
        three[column] = 3;
        for other in 0..8 {
            if other == column {
                continue;
            }
            // Four in two columns, or two: against three in one, from a lower and a higher origin.
            let (mut four, mut two) = (none, none);
            (four[column], four[other]) = (1, 3);
            (two[column], two[other]) = (1, 1);
            assert!(replaces(2, three, 0, four) && replaces(1, three, 2, four));
            assert!(!replaces(2, three, 0, two) && !replaces(1, three, 2, two));
            let mut same = none;
            (same[column], same[other]) = (1, 2);
            assert!(!replaces(2, three, 0, same) && replaces(0, three, 2, same));
        }
    }
}

#[test]
fn a_rank_is_not_cut_to_sixteen_bits() {
    let (wide, narrow) = ([65_534, 2, 0, 0, 0, 0, 0, 0], [0, 0, 1, 0, 0, 0, 0, 0]);
    assert!(!replaces(0, wide, 2, narrow));
    assert!(replaces(2, narrow, 0, wide));
    let mut most = [65_535; 8];
    most[2] = 65_534;
    assert!(replaces(0, [65_534; 8], 2, most));
    assert!(!replaces(0, [65_535; 8], 2, most));
}

#[test]
fn an_origin_that_is_not_lower_may_be_the_same() {
    let vector = [4, 0, 2, 0, 0, 0, 0, 0];
    assert!(replaces(0, vector, 0, vector));
    assert!(replaces(1, vector, 2, vector));
    assert!(!replaces(1, vector, 0, vector));
    // Of the same origin too, a lower rank does not replace.
    assert!(!replaces(0, [4, 0, 3, 0, 0, 0, 0, 0], 0, vector));
}

#[test]
fn two_causes_of_two_sites_outrank_one() {
    let mut session = opened(3, 3);
    session.put(0, 1, 1);
    session.put(1, 2, 2);
    session.drain(2, 903);
    session.get(2, 1);
    session.get(2, 2);
    session.put(2, 0, 9);
    session.put(1, 0, 8);
    assert_eq!((stored(&session, 2, 0), stored(&session, 1, 0)), ([1, 1, 0, 0, 0, 0, 0, 0], [0, 1, 0, 0, 0, 0, 0, 0]));
    for site in 0..3 {
        assert_eq!(session.drain(site, 903)[0], 0);
        assert_eq!(held(&mut session, site, 0), [0, 2, 1, 9]);
    }
}

/// Numbers that are the same in every run.
struct Numbered(u64);

impl Numbered {
    fn below(&mut self, limit: u64) -> u64 {
        self.0 = self.0.wrapping_mul(6_364_136_223_846_793_005).wrapping_add(1_442_695_040_888_963_407);
        (self.0 >> 33) % limit
    }
}

type Put = fn(&mut Session, u64, u64, u32) -> Numbers;
type Two = fn(&mut Session, u64, u64) -> Numbers;

/// Puts, gets and deliveries in any order, and a drain of each site: whether all stores were equal before it, and are.
fn equal_stores(numbers: &mut Numbered, put: Put, get: Two, deliver: Two, drain: Two) -> (bool, bool) {
    let (sites, keys) = (2 + numbers.below(3), 1 + numbers.below(2));
    let mut session = opened(sites, keys);
    for value in 0..40 {
        let (site, key, origin) = (numbers.below(sites), numbers.below(keys), numbers.below(sites));
        match numbers.below(4) {
            0 => put(&mut session, site, key, value),
            1 => get(&mut session, site, key),
            _ => deliver(&mut session, site, origin),
        };
    }
    let equal = |session: &Session| {
        let store = |site: usize| &session.table[260 + 24 * 64 * site..][..24 * keys as usize];
        (1..sites as usize).all(|site| store(site) == store(0))
    };
    let before = equal(&session);
    for site in 0..sites {
        assert_eq!(drain(&mut session, site, 903)[0], 0);
    }
    (before, equal(&session))
}

#[test]
fn when_every_site_has_applied_every_put_all_stores_are_equal() {
    let mut numbers = Numbered(2026);
    let (mut unequal_before, mut unequal_short) = (0, 0);
    for _ in 0..2_000 {
        let (before, after) = equal_stores(&mut numbers, Session::put, Session::get, Session::deliver, Session::drain);
        assert!(after);
        unequal_before += u32::from(!before);
        let (_, after) = equal_stores(
            &mut numbers,
            Session::short_put,
            Session::short_get,
            Session::short_deliver,
            Session::short_drain,
        );
        unequal_short += u32::from(!after);
    }
    // The steps before left sites that disagree for good.
    assert!(unequal_before > 1_000 && unequal_short > 1_000, "{unequal_before} and {unequal_short}");
}
