//! Document 02's cold list and touch, at their edges.

mod session;

use session::{opened, refused, Session};
use twin::{cold, touch, LIST_BYTES, REPLY_BYTES, TABLE_BYTES};

const USER: u64 = 0;
const SCAN: u64 = 1;
const MIGRATION: u64 = 2;
const RESTORE: u64 = 3;

fn record(hour: u32, toucher: u32, tier: u32) -> u32 {
    hour * 65_536 + toucher * 8_192 + tier * 2_048
}

/// One site, a key for each value.
fn holding(values: &[u32]) -> Session {
    let mut session = opened(1, values.len() as u64);
    for (key, &value) in values.iter().enumerate() {
        assert_eq!(session.put(0, key as u64, value)[0], 0);
    }
    session
}

/// Sixteen puts at site 0 that site 1 lacks, after it has been given one of another key.
fn without_room() -> Session {
    let mut session = opened(2, 2);
    session.put(1, 1, record(7, 0, 0));
    session.deliver(0, 1);
    for _ in 0..16 {
        assert_eq!(session.put(0, 0, record(7, 0, 0))[0], 0);
    }
    session
}

#[test]
fn a_record_has_its_bits_from_the_top() {
    let mut session = opened(1, 1);
    assert_eq!(session.touch(0, 0, 0x1234, RESTORE, 3), [0, 0, 0, 1, 0x1234_7800]);
    assert_eq!(session.touch(0, 0, 0xFFFF, MIGRATION, 1), [0, 0, 0, 2, 0x1234_4800]);
    assert_eq!(session.touch(0, 0, 0xFFFF, SCAN, 2), [0, 0, 0, 3, 0x1234_3000]);
    assert_eq!(session.touch(0, 0, 0xFFFF, USER, 0), [0, 0, 0, 4, 0xFFFF_0000]);
}

#[test]
fn cold_from_the_threshold_to_32767() {
    // Hour, now, threshold; listed, ahead.
    for (hour, now, threshold, listed, ahead) in [
        (7, 30, 24, 0, 0),
        (7, 31, 24, 1, 0),
        (7, 32_774, 24, 1, 0),
        (7, 32_775, 24, 0, 1),
        (7, 32_774, 32_767, 1, 0),
        (7, 32_773, 32_767, 0, 0),
        (7, 7, 1, 0, 0),
        (7, 8, 1, 1, 0),
        (7, 6, 1, 0, 1),
        // The count of hours runs round after 65,535.
        (65_535, 0, 1, 1, 0),
        (65_535, 0, 2, 0, 0),
        (65_535, 23, 24, 1, 0),
        (65_535, 22, 24, 0, 0),
        (65_535, 32_766, 24, 1, 0),
        (65_535, 32_767, 24, 0, 1),
        (0, 65_535, 24, 0, 1),
        (32_768, 65_535, 24, 1, 0),
        (32_767, 65_535, 24, 0, 1),
    ] {
        let mut session = holding(&[record(hour, 0, 0)]);
        let answer = session.cold(0, now, threshold);
        assert_eq!(answer, [0, listed, ahead, 0, 0], "hour {hour}, now {now}, threshold {threshold}");
        assert_eq!(session.listed(answer), &[0][..listed as usize]);
    }
}

#[test]
fn any_other_form_is_malformed() {
    let old = record(7, 0, 0);
    let mut values: Vec<u32> = (0..11).map(|bit| old | 1 << bit).collect();
    values.extend((4..8).flat_map(|toucher| (0..4).map(move |tier| record(7, toucher, tier))));
    let malformed = values.len() as u32;
    values.extend((0..4).flat_map(|toucher| (0..4).map(move |tier| record(7, toucher, tier))));
    let mut session = holding(&values);
    let answer = session.cold(0, 1_000, 24);
    assert_eq!(answer, [0, 16, 0, malformed, 0]);
    assert_eq!(session.listed(answer), (27..43).collect::<Vec<u8>>());
    // Its age does not matter.
    assert_eq!(holding(&[old | 1]).cold(0, 6, 1), [0, 0, 0, 1, 0]);
}

#[test]
fn the_list_is_ascending_and_the_rest_of_it_zero() {
    let mut session = opened(1, 64);
    for key in [63, 0, 40, 7] {
        session.touch(0, key, 100, USER, 0);
    }
    session.touch(0, 8, 200, USER, 0);
    session.touch(0, 9, 201, USER, 0);
    session.put(0, 10, 1);
    let answer = session.cold(0, 200, 100);
    assert_eq!(answer, [0, 4, 1, 1, 0]);
    assert_eq!(session.listed(answer), [0, 7, 40, 63]);
    for key in 0..64 {
        session.touch(0, key, 100, USER, 0);
    }
    let answer = session.cold(0, 200, 100);
    assert_eq!(answer, [0, 64, 0, 0, 0]);
    assert_eq!(session.listed(answer), (0..64).collect::<Vec<u8>>());
}

#[test]
fn never_written_keys_are_left_out() {
    let mut session = opened(2, 64);
    let fresh = session.table.clone();
    assert_eq!(session.cold(1, 65_535, 1), refused(0));
    assert_eq!(session.list, [0; LIST_BYTES]);
    assert_eq!(session.table, fresh);
    // Written at 0, and not yet at 1.
    session.touch(0, 5, 100, USER, 0);
    assert_eq!(session.cold(1, 200, 1), refused(0));
    session.deliver(1, 0);
    assert_eq!(session.cold(1, 200, 1), [0, 1, 0, 0, 0]);
}

#[test]
fn the_list_changes_no_byte() {
    let mut session = opened(3, 3);
    session.put(0, 0, record(7, 0, 0));
    session.put(1, 2, 1);
    session.deliver(2, 0);
    session.deliver(2, 1);
    let before = session.table.clone();
    assert_eq!(session.cold(2, 1_000, 24), [0, 1, 0, 1, 0]);
    assert_eq!(session.table, before);
    // A get of what it listed, or of the malformed value, would have.
    for key in [0, 2] {
        session.get(2, key);
        assert_ne!(session.table, before);
        session.table.clone_from(&before);
    }
    // So what the site puts now waits for neither.
    session.put(2, 1, 5);
    assert_eq!(session.deliver(1, 2), [0, 1, 2, 1, 5]);
}

#[test]
fn a_touch_is_its_get_and_its_put() {
    let mut session = opened(3, 2);
    session.touch(0, 0, 7, USER, 1);
    session.deliver(1, 0);
    let mut both = session.clone();
    assert_eq!(session.touch(1, 0, 900, SCAN, 2), [0, 0, 1, 1, record(7, 1, 2)]);
    both.get(1, 0);
    both.put(1, 0, record(7, 1, 2));
    assert_eq!(session.table, both.table);
    // It depends on what it got.
    assert_eq!(session.deliver(2, 1), [10, 0, 0, 1, 1]);
}

#[test]
fn the_scan_and_migration_keep_the_hour() {
    for (toucher, hour) in [(USER, 900), (SCAN, 7), (MIGRATION, 7), (RESTORE, 900)] {
        let mut session = holding(&[record(7, 3, 3)]);
        assert_eq!(session.touch(0, 0, 900, toucher, 0)[4], record(hour, toucher as u32, 0));
    }
}

#[test]
fn no_record_to_keep_the_hour_of() {
    for toucher in [SCAN, MIGRATION] {
        let mut session = opened(1, 2);
        let fresh = session.table.clone();
        assert_eq!(session.touch(0, 1, 900, toucher, 0), refused(13));
        assert_eq!(session.table, fresh);
        for value in [1, 1 << 10, record(7, 4, 0), record(7, 7, 3), u32::MAX] {
            let mut session = holding(&[value]);
            let before = session.table.clone();
            assert_eq!(session.touch(0, 0, 900, toucher, 0), refused(13));
            assert_eq!(session.table, before);
        }
    }
    for toucher in [USER, RESTORE] {
        assert_eq!(opened(1, 1).touch(0, 0, 900, toucher, 0)[0], 0);
        assert_eq!(holding(&[1]).touch(0, 0, 900, toucher, 0)[0], 0);
    }
}

#[test]
fn a_refused_touch_has_not_got_its_key() {
    let mut session = without_room();
    let before = session.table.clone();
    for toucher in [USER, SCAN, MIGRATION, RESTORE] {
        assert_eq!(session.touch(0, 1, 900, toucher, 0), refused(8));
        assert_eq!(session.table, before);
    }
    // A get would have changed the dependency row.
    session.get(0, 1);
    assert_ne!(session.table, before);
}

#[test]
fn thirteen_stands_between_six_and_seven() {
    let mut session = opened(2, 2);
    // Every place taken, and no clock left.
    session.table[4..6].copy_from_slice(&[0xFF, 0xFF]);
    session.table[20..22].copy_from_slice(&[0xFF, 0xEF]);
    for clock in 0xFFF0..=0xFFFFu16 {
        let at = 12_548 + 24 * (usize::from(clock - 1) % 16);
        session.table[at + 6..at + 8].copy_from_slice(&clock.to_be_bytes());
    }
    assert_eq!(session.touch(0, 2, 900, SCAN, 0), refused(6));
    assert_eq!(session.touch(0, 1, 900, SCAN, 0), refused(13));
    assert_eq!(session.touch(0, 1, 900, USER, 0), refused(7));
    let mut session = without_room();
    session.put(1, 1, 1);
    session.deliver(0, 1);
    assert_eq!(session.touch(0, 1, 900, MIGRATION, 0), refused(13));
    assert_eq!(session.touch(0, 1, 900, USER, 0), refused(8));
}

#[test]
fn fourteen_comes_first_of_all() {
    let cold_words = [(0, 0), (0, 32_768), (65_536, 1), (0, u64::MAX), (u64::MAX, 1), (1 << 16, 1), (0, 1 << 16 | 1)];
    let touch_words = [(65_536, 0, 0), (0, 4, 0), (0, 0, 4), (0, 256, 0), (0, 0, 1 << 32), (u64::MAX, 0, 0)];
    for (length, reply_length) in [(TABLE_BYTES, 12), (TABLE_BYTES, 11), (TABLE_BYTES - 1, 12), (0, 0), (3, 13)] {
        // Not sound either, and no such site or key.
        let mut table = vec![0xA5; length];
        let mut list = [0xA5; LIST_BYTES];
        let mut reply = vec![0xA5; reply_length];
        let expected = if reply_length == REPLY_BYTES { [&[14][..], &[0; 11]].concat() } else { reply.clone() };
        for (now, threshold) in cold_words {
            assert_eq!(cold(9, now, threshold, &mut table, &mut list, &mut reply), 14);
        }
        for size in [0, 63, 65, 128] {
            assert_eq!(cold(9, 0, 1, &mut table, &mut vec![0xA5; size], &mut reply), 14);
        }
        for (now, toucher, tier) in touch_words {
            assert_eq!(touch(9, 99, now, toucher, tier, &mut table, &mut reply), 14);
        }
        assert_eq!((table, list, reply), (vec![0xA5; length], [0xA5; LIST_BYTES], expected));
    }
}

#[test]
fn then_one_two_four_and_six() {
    let mut session = opened(2, 2);
    assert_eq!(session.cold(2, 65_535, 32_767), refused(4));
    assert_eq!(session.cold(u64::MAX, 65_535, 1), refused(4));
    assert_eq!(session.touch(2, 2, 65_535, SCAN, 3), refused(4));
    assert_eq!(session.touch(1, 1 << 32, 65_535, SCAN, 3), refused(6));
    session.table[0] = 9;
    assert_eq!(session.cold(9, 0, 1), refused(2));
    assert_eq!(session.touch(9, 9, 0, SCAN, 0), refused(2));
    let mut reply = [0xA5; REPLY_BYTES + 1];
    for length in [0, 11, 13] {
        assert_eq!(cold(0, 0, 1, &mut session.table, &mut session.list, &mut reply[..length]), 1);
        assert_eq!(touch(0, 0, 0, 0, 0, &mut session.table, &mut reply[..length]), 1);
    }
    assert_eq!(reply, [0xA5; REPLY_BYTES + 1]);
    session.table.truncate(TABLE_BYTES - 1);
    assert_eq!(session.cold(0, 0, 1), refused(1));
    assert_eq!(session.touch(0, 0, 0, USER, 0), refused(1));
    // No refusal has written the list.
    assert_eq!(session.list, [0xA5; LIST_BYTES]);
}
