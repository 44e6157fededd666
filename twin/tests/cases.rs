//! Document 01's listing and its sixteen sessions at the edges.

mod session;

use session::{opened, refused, Session};
use twin::{listing, open, put, REPLY_BYTES, TABLE_BYTES};

/// The document's schedule up to step 5.
fn before_the_drain() -> Session {
    let mut session = opened(3, 4);
    assert_eq!(session.put(0, 1, 7), [0, 1, 0, 1, 7]);
    assert_eq!(session.deliver(1, 0), [0, 1, 0, 1, 7]);
    assert_eq!(session.get(1, 1), [0, 1, 0, 1, 7]);
    assert_eq!(session.put(1, 2, 9), [0, 2, 1, 1, 9]);
    assert_eq!(session.deliver(2, 1), [10, 0, 0, 1, 1]);
    session
}

const SCHEDULE: [u8; 44] = [
    3, 4, 0x00, 1, 0, 0, 0, 7, 0x88, 0, 0, 0, 0, 0, 0x48, 1, 0, 0, 0, 0, 0x08, 2, 0, 0, 0, 9, 0x91, 0, 0, 0, 0, 0,
    0xD0, 0, 0, 0, 0, 0, 0x50, 1, 0, 0, 0, 0,
];
const LISTING: &str = "0 0 0 0 0 0\n1 0 1 0 1 7\n2 0 1 0 1 7\n3 0 1 0 1 7\n4 0 2 1 1 9\n\
                       5 10 0 0 1 1\n6 0 0 0 2 6\n7 0 1 0 1 7\n";

#[test]
fn the_documents_listing() {
    assert_eq!(listing(&SCHEDULE), format!("{LISTING}end 7\n"));
}

#[test]
fn a_schedule_cut_at_every_place() {
    assert_eq!(listing(&[]), "cut 0\n");
    assert_eq!(listing(&SCHEDULE[..1]), "cut 1\n");
    let lines: Vec<&str> = LISTING.lines().collect();
    for length in 2..SCHEDULE.len() {
        let (steps, left) = ((length - 2) / 6, (length - 2) % 6);
        let last = if left == 0 { format!("end {steps}") } else { format!("cut {left}") };
        assert_eq!(listing(&SCHEDULE[..length]), format!("{}\n{last}\n", lines[..=steps].join("\n")));
    }
}

#[test]
fn a_refused_open_ends_at_once() {
    for header in [[0, 1], [9, 1], [1, 0], [1, 65], [255, 255]] {
        assert_eq!(listing(&[&header[..], &SCHEDULE[2..13]].concat()), "0 3 0 0 0 0\nend 0\n");
    }
}

#[test]
fn what_follows_10922_steps_is_ignored() {
    let mut input = vec![1, 1];
    input.extend([0x40, 0, 0, 0, 0, 0].repeat(10_922));
    let full = listing(&input);
    assert!(full.ends_with("\n10922 0 0 0 0 0\nend 10922\n"));
    for extra in [1, 5, 6, 7] {
        assert_eq!(listing(&[&input[..], &vec![0xFF; extra]].concat()), full);
    }
}

#[test]
fn an_unused_field_answers_12_before_all_others() {
    let unused = [
        [0x3F, 255, 0, 0, 0, 1], // put at 7 with an origin
        [0x79, 255, 0, 0, 0, 0], // get at 7 with an origin
        [0x78, 255, 0, 0, 0, 1], // get at 7 with a value
        [0xBF, 1, 0, 0, 0, 0],   // deliver to 7 from 7 with a key
        [0xBF, 0, 1, 0, 0, 0],   // and with a value
        [0xF9, 0, 0, 0, 0, 0],   // drain of 7 with an origin
        [0xF8, 1, 0, 0, 0, 0],   // and with a key
        [0xF8, 0, 0, 0, 1, 0],   // and with a value
    ];
    for step in unused {
        assert_eq!(listing(&[&[1, 1], &step[..]].concat()), "0 0 0 0 0 0\n1 12 0 0 0 0\nend 1\n");
    }
}

#[test]
fn case_1_a_put() {
    assert_eq!(opened(2, 2).put(0, 0, 5), [0, 0, 0, 1, 5]);
}

#[test]
fn case_2_counts() {
    let mut session = opened(8, 64);
    session.put(7, 63, 1);
    let before = session.table.clone();
    for (sites, keys) in [(0, 1), (9, 1), (1, 65), (1, 0), (1 << 32 | 1, 1), (1, u64::MAX)] {
        assert_eq!(session.open(sites, keys), refused(3));
        assert_eq!(session.table, before);
    }
    assert_eq!(session.open(8, 64), refused(0));
    assert_eq!(session.table, [&[8, 64][..], &[0; TABLE_BYTES - 2]].concat());
}

#[test]
fn case_3_sites() {
    assert_eq!(opened(2, 2).put(1, 0, 5), [0, 0, 1, 1, 5]);
    for site in [2, 256, 1 << 32, u64::MAX] {
        assert_eq!(opened(2, 2).put(site, 9, 5), refused(4));
        assert_eq!(opened(2, 2).get(site, 9), refused(4));
        assert_eq!(opened(2, 2).deliver(site, site), refused(4));
        assert_eq!(opened(2, 2).deliver(0, site), refused(4));
        assert_eq!(opened(2, 2).drain(site, 0), refused(4));
    }
}

#[test]
fn case_4_keys() {
    assert_eq!(opened(2, 2).put(0, 1, 5), [0, 1, 0, 1, 5]);
    for key in [2, 256, 1 << 32, u64::MAX] {
        assert_eq!(opened(2, 2).put(0, key, 5), refused(6));
        assert_eq!(opened(2, 2).get(0, key), refused(6));
    }
}

#[test]
fn cases_5_and_6_deliveries_of_nothing() {
    assert_eq!(opened(2, 2).deliver(0, 0), refused(5));
    assert_eq!(opened(2, 2).deliver(1, 0), refused(9));
}

#[test]
fn case_7_a_place_used_again() {
    let mut session = opened(2, 2);
    for clock in 1..=16 {
        assert_eq!(session.put(0, 0, 100 + clock), [0, 0, 0, clock, 100 + clock]);
    }
    assert_eq!(session.put(0, 0, 117), refused(8));
    assert_eq!(session.deliver(1, 0), [0, 0, 0, 1, 101]);
    assert_eq!(session.put(0, 0, 117), [0, 0, 0, 17, 117]);
    assert_eq!(session.table[12_548..12_556], [0, 0, 0, 117, 0, 0, 0, 17]);
    assert_eq!(session.table[12_556..12_572], [&[0, 16][..], &[0; 14]].concat());
}

#[test]
fn case_8_one_site_needs_no_room() {
    let mut session = opened(1, 2);
    for clock in 1..=17 {
        assert_eq!(session.put(0, 0, 5), [0, 0, 0, clock, 5]);
    }
}

#[test]
fn cases_9_and_10_gets_that_change_nothing() {
    let mut session = opened(2, 2);
    let fresh = session.table.clone();
    assert_eq!(session.get(0, 1), [0, 1, 0, 0, 0]);
    assert_eq!(session.table, fresh);
    session.put(0, 0, 5);
    let put = session.table.clone();
    assert_eq!(session.get(0, 0), [0, 0, 0, 1, 5]);
    assert_eq!(session.table, put);
}

#[test]
fn cases_11_and_12_a_get_makes_the_cause() {
    for (reads, answer) in [(false, [0, 1, 1, 1, 6]), (true, [10, 0, 0, 1, 1])] {
        let mut session = opened(3, 2);
        session.put(0, 0, 5);
        session.deliver(1, 0);
        if reads {
            assert_eq!(session.get(1, 0), [0, 0, 0, 1, 5]);
        }
        session.put(1, 1, 6);
        assert_eq!(session.deliver(2, 1), answer);
    }
}

#[test]
fn a_delivery_names_every_site_it_waits_for() {
    let mut session = opened(8, 3);
    for (key, site) in [0, 2, 7].into_iter().enumerate() {
        session.put(site, key as u64, 5);
        session.put(site, key as u64, 6);
        session.drain(3, 903);
        session.get(3, key as u64);
    }
    session.put(3, 0, 9);
    assert_eq!(session.deliver(4, 3), [10, 0, 0, 2, 1 + 4 + 128]);
    assert_eq!(session.drain(4, 3)[0], 11); // both puts of site 0: its column equals the count
    assert_eq!(session.deliver(4, 3), [10, 0, 2, 2, 4 + 128]);
    session.deliver(4, 2);
    session.deliver(4, 7); // one of two: the column is still above the count
    assert_eq!(session.deliver(4, 3), [10, 0, 2, 2, 4 + 128]);
    session.deliver(4, 2);
    assert_eq!(session.deliver(4, 3), [10, 0, 7, 2, 128]);
    session.deliver(4, 7);
    assert_eq!(session.deliver(4, 3), [0, 0, 3, 1, 9]);
}

#[test]
fn case_13_two_puts_of_one_key_cross() {
    // As request (e) amends it: "both sites then hold 6".
    let mut session = opened(2, 2);
    session.put(0, 0, 5);
    session.put(1, 0, 6);
    assert_eq!(session.deliver(1, 0), [0, 0, 0, 1, 5]);
    assert_eq!(session.deliver(0, 1), [0, 0, 1, 1, 6]);
    assert_eq!(session.get(0, 0), [0, 0, 1, 1, 6]);
    assert_eq!(session.get(1, 0), [0, 0, 1, 1, 6]);
}

#[test]
fn case_14_a_budget() {
    assert_eq!(before_the_drain().drain(2, 5), [11, 0, 0, 2, 5]);
    assert_eq!(before_the_drain().drain(2, 6), [0, 0, 0, 2, 6]);
    assert_eq!(before_the_drain().drain(2, u64::MAX), [0, 0, 0, 2, 6]);
}

#[test]
fn case_15_budgets_with_nothing_to_do() {
    assert_eq!(opened(1, 2).drain(0, 0), refused(0));
    assert_eq!(opened(2, 2).drain(0, 0), refused(11));
    assert_eq!(opened(2, 2).drain(0, 1), [0, 0, 0, 0, 1]);
}

#[test]
fn case_16_lengths_and_soundness() {
    let mut session = opened(2, 2);
    session.table[0] = 9;
    assert_eq!(session.put(9, 9, 9), refused(2));
    session.table.truncate(TABLE_BYTES - 1);
    assert_eq!(session.put(9, 9, 9), refused(1));
    let mut reply = [0xA5; REPLY_BYTES + 1];
    for length in [0, 11, 13] {
        assert_eq!(put(0, 0, 5, &mut session.table, &mut reply[..length]), 1);
        assert_eq!(open(2, 2, &mut session.table, &mut reply[..length]), 1);
    }
    assert_eq!(reply, [0xA5; REPLY_BYTES + 1]);
}

#[test]
fn clocks_end_at_65535() {
    let mut session = opened(1, 1);
    session.table[4..6].copy_from_slice(&[0xFF, 0xFE]);
    assert_eq!(session.put(0, 0, 5), [0, 0, 0, 65_535, 5]);
    assert_eq!(session.put(0, 0, 5), refused(7));
}
