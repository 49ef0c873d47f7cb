//! What may move to another thread, and what two threads must not use at once.
use bidi_proved::{Direction, Error, Judge, Layout, Report, Room, Tables};
use std::thread;

fn is_send<T: Send>() {}

fn is_sync<T: Sync>() {}

/// Compiles only if a type is not `Sync`: otherwise both implementations of `Choice` fit.
macro_rules! is_not_sync {
    ($($name:ty),*) => {
        $({
            trait Choice<Which> {
                fn choose() {}
            }
            struct IfSync;
            impl<T: ?Sized> Choice<()> for T {}
            impl<T: ?Sized + Sync> Choice<IfSync> for T {}
            <$name as Choice<_>>::choose();
        })*
    };
}

#[test]
fn send_and_sync() {
    is_send::<Tables>();
    is_send::<Room>();
    is_send::<Layout<'static>>();
    is_send::<Judge>();
    is_send::<Report>();
    is_sync::<Tables>();
    is_not_sync!(Room, Layout<'static>, Judge, Report);
}

fn shown(room: &mut Room, tables: &Tables, number: usize) -> Result<String, Error> {
    let text = format!("\u{5D0}\u{5D1} {number} (a)");
    let layout = room.lay_out(&text, tables, Direction::Auto, &[])?;
    Ok(layout.lines().map(|line| line.shown(tables)).collect())
}

#[test]
fn a_room_and_tables_for_each_thread() -> Result<(), Error> {
    let tables = Tables::standard()?;
    let workers: Vec<_> = (0..4)
        .map(|worker| {
            let (tables, mut room) = (tables.share()?, Room::new(40)?);
            Ok(thread::spawn(move || -> Result<(), Error> {
                for number in (worker * 100)..(worker * 100 + 100) {
                    assert_eq!(shown(&mut room, &tables, number)?, format!("(a) {number} \u{5D1}\u{5D0}"));
                }
                Ok(())
            }))
        })
        .collect::<Result<_, Error>>()?;
    drop(tables);
    workers.into_iter().try_for_each(|worker| worker.join().unwrap())
}

#[test]
fn one_table_for_all_threads() -> Result<(), Error> {
    let tables = Tables::standard()?;
    thread::scope(|scope| {
        let work = |worker: usize| {
            let (tables, mut room) = (&tables, Room::new(40)?);
            for number in (worker * 100)..(worker * 100 + 100) {
                assert_eq!(shown(&mut room, tables, number)?, format!("(a) {number} \u{5D1}\u{5D0}"));
                assert_eq!(tables.share()?.mirror('('), ')');
            }
            Ok(())
        };
        let workers: Vec<_> = (0..8).map(|worker| scope.spawn(move || work(worker))).collect();
        workers.into_iter().try_for_each(|worker| worker.join().unwrap())
    })
}

#[test]
fn a_layout_moves() -> Result<(), Error> {
    let (tables, mut room) = (Tables::standard()?, Room::new(40)?);
    let layout = room.lay_out("\u{5D0}a", &tables, Direction::Auto, &[])?;
    let order = thread::scope(|scope| scope.spawn(move || layout.line(0).unwrap().order()).join().unwrap());
    assert_eq!(order, [2, 0]);
    let mut judge = Judge::characters(&tables)?;
    drop(tables);
    let verdict = thread::spawn(move || judge.feed(b"05D0;2;1;1;0\n").and_then(|_| judge.finish())).join().unwrap()?;
    assert!(verdict.is_yes());
    Ok(())
}
