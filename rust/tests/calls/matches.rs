//! A match loaded in one call, and reading a match file.
use crate::{memories, place_and_start, record, rules, DAT, IMP};
use sumacadze::{Answer, Loads, Machine, Match, Report, Rules, NO_ORIGIN};

/// A warrior as a line of a match file has it: its name, body, origin and place.
type Entry<'a> = (&'a [u8], &'a [u8], u16, u16);

fn match_file(size: u16, warriors: &[Entry]) -> Vec<u8> {
    let mut file = vec![warriors.len() as u8];
    file.extend_from_slice(&size.to_le_bytes());
    file.push(0);
    let mut start = 4 + 43 * warriors.len();
    for (name, body, origin, place) in warriors {
        file.push(name.len() as u8);
        file.extend_from_slice(name);
        file.resize(file.len() + 32 - name.len(), 0);
        file.extend_from_slice(&(start as u32).to_le_bytes());
        for number in [(body.len() / 12) as u16, *origin, *place] {
            file.extend_from_slice(&number.to_le_bytes());
        }
        start += body.len();
    }
    for (_, body, _, _) in warriors {
        file.extend_from_slice(body);
    }
    file
}

/// What a call that loads a match gives.
fn loads(answer: Answer, writes: u64, warrior: usize) -> Loads {
    let report = Report {
        answer,
        writes,
        steps: 0,
    };
    Loads { report, warrior }
}

#[test]
fn a_match_is_loaded_in_one_call() {
    let pair = [IMP, DAT].concat();
    let file = match_file(
        8,
        &[
            (b"Imp", &pair, 2, 7),
            (b"", &DAT, NO_ORIGIN, 3),
            (b"Imp", &[], 0, 2),
        ],
    );
    let (mut core, mut queue) = memories();
    let mut m = Machine::fresh(rules(), &mut core, &mut queue).unwrap();
    assert_eq!(m.load_match(&file), loads(Answer::Done, 3, 0));
    let names: Vec<_> = m.names().collect();
    assert_eq!(names, [(&b"Imp"[..], 2), (&b"Warrior0"[..], 1)]);
    let (mut core, mut queue) = memories();
    let mut single = Machine::fresh(rules(), &mut core, &mut queue).unwrap();
    single.place(b"Imp", &pair, 7);
    single.start(b"Imp", 1);
    single.place(b"", &DAT, 3);
    single.start(b"", 3);
    single.place(b"Imp", &[], 2);
    single.start(b"Imp", 2);
    assert_eq!(record(&m), record(&single));
}

#[test]
fn a_body_whose_start_is_refused_stays_placed() {
    let pair = [IMP, DAT].concat();
    let file = match_file(
        8,
        &[
            (b"A", &pair, 1, 0),
            (b"B", &IMP, 0, 3),
            (b"A", &pair, 0, 7),
            (b"C", &IMP, 0, 5),
        ],
    );
    let (mut core, mut queue) = memories();
    let mut m = Machine::fresh(Rules::of_size(8, 1), &mut core, &mut queue).unwrap();
    assert_eq!(m.load_match(&file), loads(Answer::NoRoom, 5, 2));
    let (mut core, mut queue) = memories();
    let mut single = Machine::fresh(Rules::of_size(8, 1), &mut core, &mut queue).unwrap();
    single.place(b"A", &pair, 0);
    single.start(b"A", 1);
    single.place(b"B", &IMP, 3);
    single.start(b"B", 3);
    single.place(b"A", &pair, 7);
    assert_eq!(single.start(b"A", 7).answer, Answer::NoRoom);
    assert_eq!(record(&m), record(&single));
    // as where the name's next thread number is at its end
    let mut header = *m.header();
    header.rules.processes = 2;
    header.threads[0] = u32::MAX;
    let (mut core, mut queue) = memories();
    let mut m = Machine::from_parts(&mut core, &mut queue, header);
    let file = match_file(8, &[(b"A", &pair, 0, 7)]);
    assert_eq!(m.load_match(&file), loads(Answer::NumbersExhausted, 2, 0));
    let left = [m.core()[7], m.core()[0]];
    assert_eq!(left, [single.core()[7], single.core()[0]]);
    assert_eq!((m.core()[1], *m.header()), (7, header));
}

#[test]
fn a_seventeenth_name_of_a_match_is_not_placed() {
    let (mut core, mut queue) = memories();
    let mut m = Machine::fresh(rules(), &mut core, &mut queue).unwrap();
    for name in b'A'..=b'O' {
        assert_eq!(m.place(&[name], &[], 0).answer, Answer::Done);
    }
    let file = match_file(8, &[(b"P", &IMP, 0, 1), (b"Q", &DAT, 0, 1)]);
    assert_eq!(m.load_match(&file), loads(Answer::NoRoom, 1, 1));
    assert_eq!(m.names().count(), 16);
    assert_eq!(m.get(1).unwrap().opcode, 1);
}

#[test]
fn a_refused_warrior_leaves_those_before_it() {
    let faulty = [IMP, DAT, [19; 12]].concat();
    let file = match_file(
        8,
        &[
            (b"A", &IMP, 0, 0),
            (b"B", &DAT, 0, 4),
            (b"C", &faulty, 0, 1),
            (b"D", &IMP, 0, 6),
        ],
    );
    let (mut core, mut queue) = memories();
    let mut m = Machine::fresh(rules(), &mut core, &mut queue).unwrap();
    assert_eq!(m.load_match(&file), loads(Answer::InvalidCode(2), 2, 2));
    let (mut core, mut queue) = memories();
    let mut single = Machine::fresh(rules(), &mut core, &mut queue).unwrap();
    place_and_start(&mut single, b"A", &IMP, 0);
    place_and_start(&mut single, b"B", &DAT, 4);
    assert_eq!(record(&m), record(&single));
    // the first warrior of a file refused: its number is 0, too
    let long = [DAT; 9].concat();
    for (warrior, answer) in [
        ((&b"A"[..], &long[..], 0, 0), Answer::WarriorTooLong),
        ((b"A", &IMP, 0, 8), Answer::InvalidNameOrPlace),
    ] {
        assert_eq!(
            m.load_match(&match_file(8, &[warrior])),
            loads(answer, 0, 0)
        );
        assert_eq!(record(&m), record(&single));
    }
}

#[test]
fn a_match_refused_before_its_warriors_changes_nothing() {
    let file = match_file(8, &[(b"A", &IMP, 0, 0), (b"B", &DAT, 0, 4)]);
    let other = match_file(7, &[(b"A", &IMP, 0, 0), (b"B", &DAT, 0, 4)]);
    let (mut core, mut queue) = memories();
    let mut m = Machine::fresh(rules(), &mut core, &mut queue).unwrap();
    place_and_start(&mut m, b"Imp", &IMP, 3);
    let before = record(&m);
    let cut = file.len() - 1;
    assert_eq!(m.load_match(&other), loads(Answer::InvalidCoreSize, 0, 0));
    assert_eq!(
        m.load_match(&other[..cut]),
        loads(Answer::Malformed(cut), 0, 0)
    );
    assert_eq!(
        m.load_match(&file[..cut]),
        loads(Answer::Malformed(cut), 0, 0)
    );
    assert_eq!(m.load_match(&[]), loads(Answer::Malformed(0), 0, 0));
    assert_eq!(record(&m), before);
    let mut header = before.0;
    header.ring.head = 64;
    let (mut core, mut queue) = memories();
    let mut m = Machine::from_parts(&mut core, &mut queue, header);
    let before = record(&m);
    for file in [&file[..], &other, &file[..cut], &[]] {
        assert_eq!(m.load_match(file), loads(Answer::UnsoundRecord, 0, 0));
        assert_eq!(record(&m), before);
    }
}

#[test]
fn a_file_is_read_by_its_parts() {
    let file = match_file(8, &[(b"Imp", &IMP, NO_ORIGIN, 5)]);
    let game = Match::read(&file).unwrap();
    assert_eq!((game.size, game.warriors), (8, 1));
    let w = game.warrior(0).unwrap();
    assert_eq!(
        (w.name, w.body, w.origin, w.place),
        (&b"Imp"[..], &IMP[..], NO_ORIGIN, 5)
    );
    assert_eq!(game.warrior(1).err(), Some(Answer::Malformed(0)));
    assert_eq!(Match::read(&file[..50]).err(), Some(Answer::Malformed(50)));
    assert_eq!(Match::read(&[]).err(), Some(Answer::Malformed(0)));
}
