//! Placing a body under a name, and starting a process at a place under a name.
use crate::machine::splitters;
use crate::{memories, record, rules, DAT, IMP, SPLIT};
use sumacadze::{Answer, Machine, Report, Ring, Rules};

/// No such opcode.
const FAULTY: [u8; 12] = [19; 12];

/// What an accepted call gives.
fn done(writes: u64) -> Report {
    Report {
        answer: Answer::Done,
        writes,
        steps: 0,
    }
}

/// What a refused call gives.
fn refused(answer: Answer) -> Report {
    Report {
        answer,
        writes: 0,
        steps: 0,
    }
}

/// A machine that holds sixteen names, A to P, with a process limit of 1 that each of them but A has come to.
fn sixteen<'a>(core: &'a mut [u64], queue: &'a mut [u64]) -> Machine<'a> {
    let mut m = Machine::fresh(Rules::of_size(8, 1), core, queue).unwrap();
    assert_eq!(m.place(b"A", &[], 0), done(0));
    for name in b'B'..=b'P' {
        assert_eq!(m.start(&[name], 0), done(0));
    }
    m
}

#[test]
fn placing_is_refused_by_its_numbers_in_order() {
    let (mut core, mut queue) = memories();
    let mut m = sixteen(&mut core, &mut queue);
    let before = record(&m);
    let long = [FAULTY; 9].concat();
    let faulty = [IMP, FAULTY, FAULTY].concat();
    let two_names = b"two names";
    for (name, body, place, answer) in [
        (&two_names[..], &long[..], 8, Answer::WarriorTooLong),
        (two_names, &long[..97], 8, Answer::WarriorTooLong),
        (two_names, &faulty, 8, Answer::InvalidCode(1)),
        (two_names, &IMP[..11], 8, Answer::InvalidCode(0)),
        (two_names, &IMP, 0, Answer::InvalidNameOrPlace),
        (&[b'x'; 33], &IMP, 0, Answer::InvalidNameOrPlace),
        (b"Q", &IMP, 8, Answer::InvalidNameOrPlace),
        (b"Q", &IMP, u32::MAX, Answer::InvalidNameOrPlace),
        (b"", &IMP, 7, Answer::NoRoom),
        (b"Q", &[], 0, Answer::NoRoom),
    ] {
        assert_eq!(m.place(name, body, place), refused(answer));
        assert_eq!(record(&m), before);
    }
    let mut header = before.0;
    header.ring.head = 64;
    let mut m = Machine::from_parts(&mut core, &mut queue, header);
    assert_eq!(m.place(two_names, &long, 8), refused(Answer::UnsoundRecord));
    assert_eq!(record(&m), (header, before.1, before.2));
}

#[test]
fn starting_is_refused_by_its_numbers_in_order() {
    let (mut core, mut queue) = memories();
    let mut header = *sixteen(&mut core, &mut queue).header();
    header.threads = [u32::MAX; 16];
    let mut m = Machine::from_parts(&mut core, &mut queue, header);
    let before = record(&m);
    for (name, place, answer) in [
        (&b"two names"[..], 0, Answer::InvalidNameOrPlace),
        (&[b'x'; 33], 0, Answer::InvalidNameOrPlace),
        (b"Q", 8, Answer::InvalidNameOrPlace),
        (b"B", 8, Answer::InvalidNameOrPlace),
        (b"A", u32::MAX, Answer::InvalidNameOrPlace),
        (b"Q", 7, Answer::NoRoom),
        (b"", 7, Answer::NoRoom),
        // it holds its one entry, and its next thread number is at its end, too
        (b"B", 7, Answer::NoRoom),
        (b"A", 7, Answer::NumbersExhausted),
    ] {
        assert_eq!(m.start(name, place), refused(answer));
        assert_eq!(record(&m), before);
    }
    header.rules.size = 7;
    let mut m = Machine::from_parts(&mut core, &mut queue, header);
    assert_eq!(m.start(b"two names", 8), refused(Answer::UnsoundRecord));
    assert_eq!(record(&m), (header, before.1, before.2));
}

#[test]
fn placing_writes_the_body_and_registers_the_name() {
    let (mut core, mut queue) = memories();
    let mut m = Machine::fresh(rules(), &mut core, &mut queue).unwrap();
    let before = record(&m);
    assert_eq!(m.place(b"Imp", &[DAT, SPLIT, IMP].concat(), 6), done(3));
    let opcodes = [6, 7, 0, 1].map(|at| m.get(at).unwrap().opcode);
    assert_eq!(opcodes, [0, 15, 1, 0]);
    assert_eq!(m.core()[1..6], before.1[1..6]);
    assert_eq!(m.queue(), before.2);
    // of no other name, and without a process
    assert_eq!(m.names().collect::<Vec<_>>(), [(&b"Imp"[..], 0)]);
    assert_eq!(m.step().answer, Answer::NoRemainingProcesses);
    // an empty body registers, too, and a name is registered once
    assert_eq!(m.place(b"Later", &[], 7), done(0));
    assert_eq!(m.place(b"Imp", &SPLIT, 6), done(1));
    let names = [(&b"Imp"[..], 0), (&b"Later"[..], 0)];
    assert_eq!(m.names().collect::<Vec<_>>(), names);
    assert_eq!(m.get(6).unwrap().opcode, 15);
}

#[test]
fn names_keep_the_order_in_which_they_were_registered() {
    let (mut core, mut queue) = memories();
    let mut m = Machine::fresh(rules(), &mut core, &mut queue).unwrap();
    assert_eq!(m.place(b"B", &[], 0), done(0));
    assert_eq!(m.start(b"A", 5), done(0));
    assert_eq!(m.start(b"B", 2), done(0));
    assert_eq!(m.start(b"A", 3), done(0));
    assert_eq!(
        m.names().collect::<Vec<_>>(),
        [(&b"B"[..], 1), (&b"A"[..], 2)]
    );
    assert_eq!(m.header().threads[..2], [1, 2]);
    let entries = [5 | 1 << 48, 2, 3 | 1 << 16 | 1 << 48, 0];
    assert_eq!(m.queue()[..4], entries);
    assert_eq!(m.header().ring, Ring { head: 0, length: 3 });
}

#[test]
fn an_empty_name_is_warrior0_in_both_calls() {
    let (mut core, mut queue) = memories();
    let mut m = Machine::fresh(rules(), &mut core, &mut queue).unwrap();
    assert_eq!(m.start(b"", 3), done(0));
    assert_eq!(m.place(b"Warrior0", &IMP, 3), done(1));
    assert_eq!(m.place(b"", &IMP, 5), done(1));
    assert_eq!(m.start(b"Warrior0", 5), done(0));
    assert_eq!(m.names().collect::<Vec<_>>(), [(&b"Warrior0"[..], 2)]);
}

#[test]
fn a_process_starts_where_nothing_was_placed() {
    let (mut core, mut queue) = memories();
    let mut m = Machine::fresh(rules(), &mut core, &mut queue).unwrap();
    let fresh = m.core().to_vec();
    assert_eq!(m.start(b"A", 7), done(0));
    assert_eq!(m.core(), fresh);
    assert_eq!(m.names().collect::<Vec<_>>(), [(&b"A"[..], 1)]);
    assert_eq!(m.step().answer, Answer::ExecuteDat(7));
}

#[test]
fn a_warrior_that_waits_runs_when_it_is_started() {
    let (mut core, mut queue) = memories();
    let mut m = Machine::fresh(rules(), &mut core, &mut queue).unwrap();
    m.place(b"First", &IMP, 0);
    m.place(b"Second", &IMP, 4);
    m.start(b"First", 0);
    assert_eq!(m.run(Some(2)).steps, 2);
    assert_eq!(m.header().counts[..2], [1, 0]);
    assert_eq!(m.header().threads[..2], [1, 0]);
    // a process of another name may be started in a body, at any of its instructions
    m.start(b"Second", 1);
    assert_eq!(m.run(Some(6)).writes, 4);
    assert_eq!(m.queue()[6..8], [4, 3 | 1 << 48]);
    assert_eq!(m.header().counts[..2], [1, 1]);
}

#[test]
fn only_a_start_meets_the_process_limit() {
    let (mut core, mut queue) = memories();
    let mut m = splitters(&mut core, &mut queue);
    let before = record(&m);
    // A holds both of its entries
    assert_eq!(m.start(b"A", 6), refused(Answer::NoRoom));
    assert_eq!(record(&m), before);
    assert_eq!(m.place(b"A", &IMP, 6), done(1));
    assert_eq!(m.get(6).unwrap().opcode, 1);
    assert_eq!((*m.header(), m.queue()), (before.0, &before.2[..]));
    assert_eq!(m.start(b"B", 6), done(0));
    for name in b'C'..=b'P' {
        for _ in 0..2 {
            assert_eq!(m.start(&[name], 6), done(0));
        }
    }
    // sixteen names are held, and each holds 2 entries
    assert_eq!(m.header().ring.length, 32);
    for name in b'A'..=b'Q' {
        assert_eq!(m.start(&[name], 6), refused(Answer::NoRoom));
        let placed = m.place(&[name], &DAT, 6);
        assert_eq!(placed.answer.number(), if name == b'Q' { 6 } else { 0 });
    }
}
