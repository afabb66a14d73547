//! Names: what is removed, listed and created.

use super::trial::*;
use crate::bytes::{u32_at, u64_at};
use crate::machine::Settings;
use crate::wire::opcode;

#[test]
fn the_database_is_dropped_only_where_that_is_allowed() {
    let mut trial = Trial::linked(Settings::default());
    trial.ask(opcode::UNLINK, 1, b"app\0");
    assert_eq!((trial.reply().1, trial.sent()), (Err(1), vec![]));
    let mut trial = Trial::linked(Settings { may_drop: true, ..Settings::default() });
    trial.ask(opcode::UNLINK, 1, b"app\0");
    let sent = trial.sent().remove(0);
    assert_eq!((sent.opcode, sent.body), (opcode::UNLINK, b"app\0".to_vec()));
    trial.answer(Err(11));
    assert_eq!(trial.reply().1, Err(11));
}

#[test]
fn a_removed_file_that_is_made_anew_has_another_number() {
    for (name, node) in [(&b"app-wal"[..], LOG), (b"app-shm", SHARED)] {
        let mut trial = Trial::linked(Settings::default());
        let before = trial.look_up(name, node);
        assert_eq!(trial.look_up(name, node), before);
        trial.ask(opcode::UNLINK, 1, &[name, &[0]].concat());
        trial.answer(Err(2));
        assert_eq!(trial.reply().1, Err(2));
        assert_eq!(trial.look_up(name, node), before);
        trial.ask(opcode::UNLINK, 1, &[name, &[0]].concat());
        trial.answer(Ok(&[]));
        assert_eq!(trial.reply().1, Ok(vec![]));
        let after = trial.look_up(name, node);
        assert!(after != before && after & 255 == node);
    }
}

#[test]
fn a_removed_file_is_stale_but_its_handle_can_be_closed() {
    let mut trial = Trial::linked(Settings::default());
    let (number, handle) = trial.opened(b"app-wal", LOG, 8);
    trial.ask(opcode::UNLINK, 1, b"app-wal\0");
    trial.answer(Ok(&[]));
    let _ = trial.reply();
    trial.sent();
    for (opcode, body, wanted) in [
        (opcode::READ, at(handle, 0, 4), Err(116)),
        (opcode::GETATTR, vec![0; 16], Err(116)),
        (opcode::OPEN, vec![0; 8], Err(2)),
    ] {
        trial.ask(opcode, number, &body);
        assert_eq!((trial.reply().1, trial.sent()), (wanted, vec![]));
    }
    trial.ask(opcode::RELEASE, number, &closing(handle, 0));
    let release = trial.sent().remove(0);
    assert_eq!((release.opcode, u64_at(&release.body, 0)), (opcode::RELEASE, 8));
}

#[test]
fn a_listing_has_the_names_that_the_node_has() {
    let mut trial = Trial::linked(Settings { name: Some(b"app".to_vec()), ..Settings::default() });
    let mut request = at(0, 0, 4_096);
    trial.ask(opcode::READDIR, 1, &request);
    let asked: Vec<Vec<u8>> = trial.sent().into_iter().map(|sent| sent.body).collect();
    let names = ["app", "app-journal", "app-wal", "app-shm", "app-pos", "app-lock", ".primary"];
    assert_eq!(asked, names.map(|name| [name.as_bytes(), &[0]].concat()));
    for node in [DATABASE, 0, 0, 0, POSITION, 0, 0] {
        assert_eq!(trial.replies(), []);
        trial.answer(if node == 0 { Err(2) } else { Ok(entry(node)) }.as_deref().map_err(|error| *error));
    }
    let body = trial.reply().1.unwrap();
    assert_eq!(entries(&body), [(".", 1), ("..", 2), ("app", 3), ("app-pos", 7)].map(|(name, next)| (name.to_string(), next)));
    request[8] = 3;
    trial.ask(opcode::READDIR, 1, &request);
    (0..7).for_each(|_| trial.answer(Err(2)));
    assert_eq!(trial.reply().1, Ok(vec![]));
}

/// Names, and where each next entry begins.
fn entries(mut body: &[u8]) -> Vec<(String, u64)> {
    let mut found = Vec::new();
    while !body.is_empty() {
        let size = u32_at(body, 16) as usize;
        found.push((String::from_utf8(body[24..24 + size].to_vec()).unwrap(), u64_at(body, 8)));
        body = &body[(24 + size).next_multiple_of(8)..];
    }
    found
}

#[test]
fn the_databases_name_is_learned_from_its_files() {
    let mut trial = Trial::linked(Settings::default());
    trial.ask(opcode::READDIR, 1, &at(0, 0, 4_096));
    assert_eq!(trial.sent().len(), 1);
    trial.answer(Err(2));
    let _ = trial.reply();
    trial.look_up(b".primary", 8);
    trial.look_up(b"app-pos", POSITION);
    trial.ask(opcode::READDIR, 1, &at(0, 0, 4_096));
    assert_eq!(trial.sent()[0].body, b"app\0");
}

#[test]
fn a_created_file_is_an_entry_and_open() {
    let mut trial = Trial::linked(Settings { uid: 3, ..Settings::default() });
    trial.ask(opcode::CREATE, 1, &[&[0; 16][..], b"app-journal\0"].concat());
    assert_eq!(trial.asked(), [(opcode::CREATE, 1)]);
    trial.answer(Ok(&[entry(JOURNAL), opened(9)].concat()));
    let body = trial.reply().1.unwrap();
    assert_eq!((u64_at(&body, 0) & 255, u32_at(&body, 40 + 68), u32_at(&body, 128 + 8)), (JOURNAL, 3, 1));
    trial.ask(opcode::WRITE, u64_at(&body, 0), &[&at(u64_at(&body, 128), 0, 3)[..], b"abc"].concat());
    let write = trial.sent().remove(0);
    assert_eq!((u64_at(&write.body, 0), &write.body[40..]), (9, &b"abc"[..]));
}

#[test]
fn at_a_replica_the_database_is_opened_for_reading_alone_where_that_is_wanted() {
    for (wanted, flags, primary, result) in [
        (true, 2u64, true, Err(30)),
        (true, 1, true, Err(30)),
        (true, 0, true, Ok(())),
        (true, 2, false, Ok(())),
        (false, 2, true, Ok(())),
    ] {
        let mut trial = Trial::linked(Settings { read_only_at_replica: wanted, ..Settings::default() });
        let number = trial.look_up(b"app", DATABASE);
        trial.ask(opcode::OPEN, number, &flags.to_le_bytes());
        if wanted && flags != 0 {
            assert_eq!(trial.sent()[0].body, b".primary\0");
            trial.answer(if primary { Ok(&[0; 128]) } else { Err(2) });
        }
        if result.is_ok() {
            assert_eq!(trial.asked(), [(opcode::OPEN, DATABASE)]);
            trial.answer(Ok(&opened(1)));
        }
        assert_eq!(trial.reply().1.map(|_| ()), result, "{wanted} {flags} {primary}");
    }
}
