//! Fresh, step, run and cell reading; process limits, read and write limits; unsound headers; memory that comes as pointers.
use crate::{memories, place_and_start, record, rules, DAT, IMP, SPLIT};
use sumacadze::{Answer, Header, Machine, NotLent, Ring, Roster, Rules};

#[test]
fn fresh_refuses_in_order_and_changes_nothing() {
    let (mut core, mut queue) = memories();
    assert_eq!(
        Machine::fresh(Rules::of_size(0, 4), &mut core, &mut queue).err(),
        Some(Answer::InvalidCoreSize)
    );
    assert_eq!(
        Machine::fresh(Rules::of_size(46342, 4), &mut core, &mut queue).err(),
        Some(Answer::InvalidCoreSize)
    );
    assert_eq!(
        Machine::fresh(Rules::of_size(9, 4), &mut core, &mut queue).err(),
        Some(Answer::InvalidMemory)
    );
    assert_eq!(
        Machine::fresh(rules(), &mut core, &mut []).err(),
        Some(Answer::InvalidMemory)
    );
    for (read, write) in [(0, 8), (8, 0), (3, 8), (8, 16), (u32::MAX, 8)] {
        let rules = |size| Rules {
            size,
            read,
            write,
            processes: 4,
        };
        let refused = |size, core: &mut [u64], queue: &mut [u64]| {
            Machine::fresh(rules(size), core, queue).err()
        };
        assert_eq!(
            refused(0, &mut core, &mut queue),
            Some(Answer::InvalidCoreSize)
        );
        assert_eq!(refused(8, &mut core, &mut []), Some(Answer::InvalidMemory));
        assert_eq!(
            refused(8, &mut core, &mut queue),
            Some(Answer::InvalidLimit)
        );
    }
    assert_eq!((core, queue), memories());
}

/// What fresh answers with a queue memory of so many entries, which a refusal leaves as they are.
fn fresh_with(rules: Rules, core: &mut [u64], entries: usize) -> Option<Answer> {
    let mut queue = vec![7; entries];
    let refused = Machine::fresh(rules, core, &mut queue).err();
    let kept = queue.iter().all(|word| *word == 7);
    assert_eq!(refused.is_some(), kept);
    refused
}

#[test]
fn fresh_refuses_a_process_limit_that_the_queue_has_no_room_for() {
    let (mut core, _) = memories();
    for (processes, entries) in [
        (0, 16),
        (1, 15),
        (1, 65536),
        (4, 63),
        (4095, 65519),
        (4096, 65535),
        (4096, 65536),
        (1 << 28, 16),
        (u32::MAX, 65535),
    ] {
        let mut refused = |rules| fresh_with(rules, &mut core, entries);
        let rules = Rules::of_size(8, processes);
        assert_eq!(refused(rules), Some(Answer::InvalidMemory));
        // 1 comes before it, 14 after it
        let of_none = Rules { size: 0, ..rules };
        assert_eq!(refused(of_none), Some(Answer::InvalidCoreSize));
        let limited = Rules { read: 3, ..rules };
        assert_eq!(refused(limited), Some(Answer::InvalidMemory));
    }
    assert_eq!(core, memories().0);
}

#[test]
fn fresh_takes_a_process_limit_that_the_queue_has_room_for() {
    let (mut core, _) = memories();
    for (processes, entries) in [(1, 16), (1, 65535), (4, 64), (4095, 65520), (4095, 65535)] {
        let rules = Rules::of_size(8, processes);
        assert_eq!(fresh_with(rules, &mut core, entries), None);
    }
}

/// A machine in which each name may hold 2 entries: A, with two warriors of one SPL, holds both of its own and B, with one, one.
pub fn splitters<'a>(core: &'a mut [u64], queue: &'a mut [u64]) -> Machine<'a> {
    let mut m = Machine::fresh(Rules::of_size(8, 2), core, queue).unwrap();
    for (name, place) in [(b"A", 0), (b"A", 2), (b"B", 4)] {
        assert_eq!(place_and_start(&mut m, name, &SPLIT, place), Answer::Done);
    }
    m
}

#[test]
fn a_child_is_dropped_where_its_own_name_holds_the_process_limit() {
    let (mut core, mut queue) = memories();
    let mut m = splitters(&mut core, &mut queue);
    for (counts, threads) in [([2, 1], [2, 1]), ([2, 1], [2, 1]), ([2, 2], [2, 2])] {
        let step = m.step();
        assert_eq!((step.answer, step.writes, step.steps), (Answer::Done, 0, 1));
        assert_eq!(m.header().counts[..2], counts);
        assert_eq!(m.header().threads[..2], threads);
    }
    // PC+1 of both that are A's, of B's, and B's child with its thread number
    let entries = [1, 3 | 1 << 16, 5 | 1 << 48, 4 | 1 << 16 | 1 << 48];
    assert_eq!(m.queue()[3..7], entries);
    assert_eq!(m.header().ring, Ring { head: 3, length: 4 });
}

#[test]
fn a_header_with_a_count_over_its_process_limit_is_refused() {
    let (mut core, mut queue) = memories();
    let sound = *splitters(&mut core, &mut queue).header();
    let mut answer = |header| {
        let mut m = Machine::from_parts(&mut core, &mut queue, header);
        let before = record(&m);
        let number = m.run(Some(0)).answer;
        assert_eq!(record(&m), before);
        number
    };
    let with_limit = |processes| Header {
        rules: Rules::of_size(8, processes),
        ..sound
    };
    // A holds 2 entries, and the queue memory has 64
    for processes in [2, 3, 4] {
        assert_eq!(answer(with_limit(processes)), Answer::Done);
    }
    for processes in [0, 1, 5, 4096] {
        assert_eq!(answer(with_limit(processes)), Answer::UnsoundRecord);
    }
    let mut over = sound;
    over.ring.length += 1;
    over.counts[0] += 1;
    assert_eq!(answer(over), Answer::UnsoundRecord);
    // a slot without a name may hold any count
    let mut beside = sound;
    beside.counts[2] = u32::MAX;
    assert_eq!(answer(beside), Answer::Done);
}

#[test]
fn limits_fold_what_is_read_and_written() {
    let (mut core, mut queue) = memories();
    let rules = Rules {
        size: 8,
        read: 4,
        write: 2,
        processes: 4,
    };
    let mut m = Machine::fresh(rules, &mut core, &mut queue).unwrap();
    assert_eq!(m.header().rules, rules);
    // JMP.B <3, $6 at 4: the decrement is at 5, the read chain goes by the cell at 3
    let jump = [7, 1, 5, 1, 3, 0, 0, 0, 6, 0, 0, 0];
    place_and_start(&mut m, b"A", &jump, 4);
    place_and_start(&mut m, b"B", &IMP, 0);
    let first = m.step();
    assert_eq!(
        (first.answer, first.writes, first.steps),
        (Answer::Done, 1, 1)
    );
    assert_eq!(m.get(5).unwrap().b, 7);
    assert_eq!(m.queue()[2] & 0xffff, 3);
    let mut header = *m.header();
    header.rules.write = 3;
    let before = record(&m);
    let (mut core, mut queue) = (before.1.clone(), before.2.clone());
    let mut m = Machine::from_parts(&mut core, &mut queue, header);
    assert_eq!(m.step().answer, Answer::UnsoundRecord);
    assert_eq!(record(&m), (header, before.1, before.2));
}

#[test]
fn an_imp_runs_and_a_dat_ends() {
    let (mut core, mut queue) = memories();
    let mut m = Machine::fresh(rules(), &mut core, &mut queue).unwrap();
    assert_eq!(place_and_start(&mut m, b"Imp", &IMP, 6), Answer::Done);
    assert_eq!(place_and_start(&mut m, b"", &DAT, 3), Answer::Done);
    let first = m.step();
    assert_eq!(
        (first.answer, first.writes, first.steps),
        (Answer::Done, 1, 1)
    );
    let second = m.step();
    assert_eq!(
        (second.answer, second.writes, second.steps),
        (Answer::ExecuteDat(3), 0, 1)
    );
    let rest = m.run(Some(10));
    assert_eq!((rest.answer, rest.writes, rest.steps), (Answer::Done, 8, 8));
    assert_eq!(m.run(None).steps, 9990);
    let names: Vec<_> = m.names().collect();
    assert_eq!(names, [(&b"Imp"[..], 1), (&b"Warrior0"[..], 0)]);
    let cell = m.get(-1).unwrap();
    assert_eq!((cell.opcode, cell.modifier, cell.a, cell.b), (1, 6, 0, 1));
}

#[test]
fn any_header_is_taken_and_an_unsound_one_is_refused() {
    let header = Header {
        rules: rules(),
        ring: Ring {
            head: u32::MAX,
            length: u32::MAX,
        },
        steps: u32::MAX,
        names: Roster {
            held: u32::MAX,
            bytes: [255; 512],
            lengths: [255; 16],
        },
        counts: [u32::MAX; 16],
        threads: [u32::MAX; 16],
    };
    let (mut core, mut queue) = memories();
    let mut m = Machine::from_parts(&mut core, &mut queue, header);
    assert_eq!(m.step().answer, Answer::UnsoundRecord);
    assert_eq!(m.run(None).answer, Answer::UnsoundRecord);
    assert_eq!(m.place(b"", &IMP, 0).answer, Answer::UnsoundRecord);
    assert_eq!(m.start(b"", 0).answer, Answer::UnsoundRecord);
    assert_eq!(m.get(0).err(), Some(Answer::UnsoundRecord));
    assert_eq!(m.names().count(), 16);
    assert_eq!(*m.header(), header);
    assert_eq!((core, queue), memories());
}

#[test]
fn memory_that_comes_as_pointers_is_tested() {
    let mut words = vec![0u64; 24];
    let (mut core, mut queue) = memories();
    let header = *Machine::fresh(Rules::of_size(8, 1), &mut core, &mut queue)
        .unwrap()
        .header();
    let at = words.as_mut_ptr();
    let take = |core: *mut u64, cells: usize, queue: *mut u64, entries: usize| {
        // SAFETY: both are refused, or lie in `words`, which nothing else uses meanwhile.
        unsafe { Machine::from_raw_parts(core, cells, queue, entries, header) }
            .map(|mut m| m.step().answer)
    };
    let null = std::ptr::null_mut();
    assert_eq!(take(null, 8, at, 16), Err(NotLent::Null));
    assert_eq!(take(at, 8, null, 0), Err(NotLent::Null));
    assert_eq!(
        take(at.wrapping_byte_add(1), 8, at, 0),
        Err(NotLent::Misaligned)
    );
    assert_eq!(take(at, usize::MAX / 4, at, 0), Err(NotLent::TooLong));
    assert_eq!(
        take(at, isize::MAX as usize / 8 + 1, at, 0),
        Err(NotLent::TooLong)
    );
    assert_eq!(
        take(at, 8, at.wrapping_add(7), 16),
        Err(NotLent::Overlapping)
    );
    assert_eq!(
        take(at, 8, at.wrapping_add(8), 16),
        Ok(Answer::NoRemainingProcesses)
    );
}
