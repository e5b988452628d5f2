//! Each refusal and each answer through the safe types, and what the types keep.

use ksmbook::{Error, Found, FoundEqual, Frame, Gone, Kind, OwnedHold, Pass, Shape, Table, Told};

const PAGE: [u64; 8] = [1, 2, 3, 4, 5, 6, 7, 8];

fn open() -> (Table, Pass) {
    let table = Table::open(Shape { last_generation: 2, passes: 1, ..Shape::SMALL }).unwrap();
    let pass = table.pass().unwrap();
    (table, pass)
}

fn gone(pass: &mut Pass, place: u32) -> Gone {
    match pass.find(place).unwrap() {
        Found::Held(_) => panic!("place {place} is held"),
        Found::Gone(why) => why,
    }
}

fn held(pass: Pass, place: u32) -> OwnedHold {
    pass.hold(place).ok().unwrap()
}

#[test]
fn shapes_and_passes() {
    assert_eq!(Table::open(Shape { nodes: Shape::MOST_NODES + 1, ..Shape::default() }).err(), Some(Error::Shape));
    let (table, pass) = open();
    assert_eq!(table.pass().err(), Some(Error::NoPass));
    drop(pass);
    let pass = table.pass().unwrap();
    let passes = table.passes();
    // The table is closed with its last pass.
    assert_eq!(table.close(), Err(Error::PassesOut));
    assert_eq!(passes.take().err(), Some(Error::NoPass));
    drop(pass);
    let (table, pass) = open();
    drop(pass);
    let passes = table.passes();
    table.close().unwrap();
    assert_eq!(passes.take().err(), Some(Error::NoPass));
}

// `?` works on each call.
#[test]
fn one_result() -> ksmbook::Result<()> {
    let table = Table::open(Shape::SMALL)?;
    let mut pass = table.pass()?;
    assert_eq!(pass.look_up(0)?, Found::Gone(Gone::Vacant));
    assert_eq!(pass.look_up(16), Err(Error::Range));
    drop(pass);
    table.close()
}

#[test]
fn a_frame_through_its_lives() {
    let (mut table, mut pass) = open();
    assert_eq!(table.frame(0), Ok(Frame { kind: Kind::Free, references: 0, life: 0 }));
    assert_eq!(table.frame(16), Err(Error::Range));
    assert_eq!(table.publish(0, 0), Err(Error::State));
    assert_eq!(gone(&mut pass, 3), Gone::Vacant);
    table.give(0, &PAGE).unwrap();
    table.publish(3, 0).unwrap();
    assert_eq!(table.withdraw(3), Err(Error::State));
    let hold = pass.find(3).unwrap().held().expect("a hold");
    assert_eq!((hold.words(), *hold, hold.word(7), hold.word(8)), (PAGE, PAGE, Some(8), None));
    assert_eq!(hold.told(), Told { place: 3, frame: 0, life: 1 });
    assert_eq!(table.freeze(0), Ok(false));
    table.add(0).unwrap();
    table.sub(0).unwrap();
    table.sub(0).unwrap();
    assert_eq!(table.frame(0), Ok(Frame { kind: Kind::Dying, references: 0, life: 1 }));
    assert_eq!((table.reap(0), hold.words(), table.load(0, 7)), (Ok(false), PAGE, Ok(8)));
    hold.leave();
    assert_eq!(gone(&mut pass, 3), Gone::Zero);
    assert_eq!(table.reap(0), Ok(true));
    table.give(0, &PAGE).unwrap();
    assert_eq!(gone(&mut pass, 3), Gone::Life);
    table.publish(3, 0).unwrap();
    assert_eq!(pass.look_up(3), Ok(Found::Held(PAGE)));
    assert!(matches!(pass.find_equal(3, &PAGE), Ok(FoundEqual::Held(_))));
    assert!(matches!(pass.find_equal(3, &[0; 8]), Ok(FoundEqual::Differs(_))));
    assert_eq!((table.freeze(0), table.reap(0)), (Ok(true), Ok(true)));
    assert_eq!(table.frame(0).unwrap().kind, Kind::Retired);
    table.withdraw(3).unwrap();
    drop(pass);
    table.close().unwrap();
}

#[test]
fn a_place_is_replaced() {
    let (mut table, mut pass) = open();
    let other = [9; 8];
    table.give(0, &PAGE).unwrap();
    table.give(1, &other).unwrap();
    assert_eq!((table.replace(16, 0), table.replace(3, 16)), (Err(Error::Range), Err(Error::Range)));
    // The place names nothing; then the frame is not private.
    assert_eq!(table.replace(3, 0), Err(Error::State));
    table.publish(3, 0).unwrap();
    assert_eq!((table.replace(3, 0), table.publish(3, 1)), (Err(Error::State), Err(Error::State)));
    let hold = pass.find(3).unwrap().held().unwrap();
    table.replace(3, 1).unwrap();
    assert_eq!(table.frame(0), Ok(Frame { kind: Kind::Stable, references: 1, life: 1 }));
    assert_eq!(table.frame(1), Ok(Frame { kind: Kind::Stable, references: 1, life: 1 }));
    table.sub(0).unwrap();
    assert_eq!((table.reap(0), hold.words()), (Ok(false), PAGE));
    hold.leave();
    assert_eq!((table.reap(0), pass.look_up(3)), (Ok(true), Ok(Found::Held(other))));
    // A frame that was given up is not replaced, but named anew.
    table.sub(1).unwrap();
    table.give(0, &PAGE).unwrap();
    assert_eq!((table.replace(3, 0), table.publish(3, 0)), (Err(Error::State), Ok(())));
    assert_eq!(pass.look_up(3), Ok(Found::Held(PAGE)));
}

#[test]
fn frames_are_reaped_together() {
    let (mut table, mut pass) = open();
    for frame in 0..4 {
        table.give(frame, &PAGE).unwrap();
        table.publish(frame, frame).unwrap();
    }
    let hold = pass.find(2).unwrap().held().unwrap();
    for frame in 0..3 {
        table.sub(frame).unwrap();
    }
    let mut frames = [0, 2, 1];
    assert_eq!((table.reap_all(&mut frames), frames[0]), (Ok(1), 2));
    // Frame 3 is not dying, and frame 2 is held.
    let mut frames = [2, 3];
    assert_eq!((table.reap_all(&mut frames), frames), (Err(Error::State), [2, 3]));
    hold.leave();
    assert_eq!((table.reap_all(&mut frames[..1]), table.reap_all(&mut [])), (Ok(0), Ok(0)));
}

#[test]
fn a_hold_is_given_back_when_it_is_dropped() {
    let (mut table, mut pass) = open();
    table.give(0, &PAGE).unwrap();
    table.publish(0, 0).unwrap();
    {
        let _held = pass.find(0).unwrap();
        assert_eq!(table.freeze(0), Ok(false));
    }
    let hold = pass.find(0).unwrap().held().expect("a hold");
    hold.keep();
    assert_eq!(table.freeze(0), Ok(false));
    // The next lookup gives up what was kept, and so does the end of the pass.
    assert_eq!(pass.look_up(0), Ok(Found::Held(PAGE)));
    pass.find(0).unwrap().held().unwrap().keep();
    drop(pass);
    assert_eq!(table.freeze(0), Ok(true));
    table.close().unwrap();
}

/// A hold that lies beside other things, and its pass with it.
struct Kept {
    name: &'static str,
    hold: OwnedHold,
}

#[test]
fn a_hold_may_be_kept_and_sent() {
    let (mut table, pass) = open();
    table.give(0, &PAGE).unwrap();
    table.publish(0, 0).unwrap();
    let (answer, pass) = pass.hold(1).err().unwrap();
    assert_eq!(answer, Ok(Gone::Vacant));
    let (answer, pass) = pass.hold(16).err().unwrap();
    assert_eq!(answer, Err(Error::Range));
    let kept = Kept { name: "kept", hold: held(pass, 0) };
    let kept = std::thread::spawn(move || {
        assert_eq!(*kept.hold, PAGE);
        kept
    })
    .join()
    .unwrap();
    assert_eq!((table.freeze(0), kept.name), (Ok(false), "kept"));
    let pass = kept.hold.leave();
    assert_eq!(table.freeze(0), Ok(true));
    drop(pass);
    table.close().unwrap();
}

#[test]
fn any_thread_takes_passes_while_another_has_the_table() {
    let mut table = Table::open(Shape { passes: 8, frames_per_node: 64, ..Shape::SMALL }).unwrap();
    let passes = table.passes();
    std::thread::scope(|scope| {
        for _ in 0..8 {
            let passes = passes.clone();
            scope.spawn(move || {
                for _ in 0..500 {
                    let mut pass = passes.take().unwrap();
                    if let Found::Held(page) = pass.look_up(5).unwrap() {
                        assert!(page.iter().all(|word| *word == page[0]));
                    }
                }
            });
        }
        for n in 0..2000u64 {
            let frame = (n % 64) as u32;
            table.give(frame, &[n; 8]).unwrap();
            table.publish(5, frame).unwrap();
            table.sub(frame).unwrap();
            while !table.reap(frame).unwrap() {}
        }
    });
    table.close().unwrap();
}

#[test]
fn a_thread_that_panics_gives_its_pass_back() {
    let (mut table, mut pass) = open();
    table.give(0, &PAGE).unwrap();
    table.publish(0, 0).unwrap();
    let panicked = std::thread::spawn(move || {
        let _held = pass.find(0).unwrap();
        panic!("on purpose");
    });
    assert!(panicked.join().is_err());
    assert_eq!(table.freeze(0), Ok(true));
    table.close().unwrap();
}

#[test]
fn the_library_is_of_this_version() {
    assert_eq!(ksmbook::library_version() / 10_000, 1);
}
