//! Numbers, handles and what is answered without the node.

use super::trial::*;
use crate::bytes::{put_u32, u32_at, u64_at};
use crate::machine::output::Action;
use crate::machine::Settings;
use crate::wire::opcode;

fn offer(flags: u64) -> Vec<u8> {
    let mut body = vec![0; 64];
    put_u32(&mut body, 0, 7);
    put_u32(&mut body, 4, 45);
    put_u32(&mut body, 12, flags as u32);
    put_u32(&mut body, 16, (flags >> 32) as u32);
    body
}

#[test]
fn of_the_kernels_offer_only_what_is_wanted_is_taken() {
    for (passthrough, offered, wanted) in [
        (false, u64::MAX, 0x4200_0022),
        (true, u64::MAX, 0x20_4200_0022),
        (true, 0xffff_ffff, 0x4200_0022),
        (true, 2, 2),
    ] {
        let mut trial = Trial::new(Settings { passthrough, ..Settings::default() });
        trial.ask(opcode::INIT, 0, &offer(offered));
        let actions = trial.actions();
        let (_, body) = told(&actions[0]).unwrap();
        let body = body.unwrap();
        assert_eq!(u64::from(u32_at(&body, 12)) | u64::from(u32_at(&body, 32)) << 32, wanted);
        assert_eq!((u32_at(&body, 0), u32_at(&body, 20)), (7, 131_072));
        assert_eq!(actions[1], Action::Started { passthrough: wanted >> 37 == 1 });
    }
}

#[test]
fn a_link_begins_with_version_7_31() {
    let mut trial = Trial::new(Settings::default());
    trial.machine.link_up();
    let first = trial.sent().remove(0);
    assert_eq!((first.opcode, u32_at(&first.body, 0), u32_at(&first.body, 4)), (opcode::INIT, 7, 31));
}

#[test]
fn these_are_answered_without_the_node() {
    let mut trial = Trial::linked(Settings::default());
    let mknod_mkdir_rmdir_rename_link_rename2 = [8, 9, 11, 12, 13, 45].map(|opcode| (opcode, Err(1)));
    let symlink_readlink_access_getxattr_statx = [6, 5, 34, 22, 52].map(|opcode| (opcode, Err(38)));
    let opendir_releasedir_fsyncdir = [(27, Ok(16)), (29, Ok(0)), (30, Ok(0))];
    let statfs_getattr_of_the_folder = [(17, Ok(80)), (3, Ok(104))];
    let all = [&mknod_mkdir_rmdir_rename_link_rename2[..], &symlink_readlink_access_getxattr_statx, &opendir_releasedir_fsyncdir, &statfs_getattr_of_the_folder];
    for (opcode, wanted) in all.concat() {
        let unique = trial.ask(opcode, 1, &[0; 48]);
        let (told, result) = trial.reply();
        assert_eq!((told, result.map(|body| body.len())), (unique, wanted), "opcode {opcode}");
        assert_eq!(trial.sent(), []);
    }
}

#[test]
fn a_forget_has_no_reply_and_the_unmount_stops() {
    let mut trial = Trial::linked(Settings::default());
    trial.ask(opcode::FORGET, 2, &[0; 8]);
    trial.ask(opcode::BATCH_FORGET, 0, &[0; 8]);
    assert_eq!(trial.actions(), []);
    trial.ask(opcode::DESTROY, 0, &[]);
    assert_eq!(trial.actions()[1], Action::Stop);
}

#[test]
fn the_attributes_tell_the_mounts_owner_and_the_kernels_number() {
    let mut trial = Trial::linked(Settings { uid: 1_000, gid: 1_001, ..Settings::default() });
    trial.ask(opcode::LOOKUP, 1, b"app\0");
    trial.answer(Ok(b"position one\n"));
    trial.answer(Ok(&entry(DATABASE)));
    let body = trial.reply().1.unwrap();
    let number = u64_at(&body, 0);
    assert_eq!((number & 255, u64_at(&body, 40), u64_at(&body, 48)), (DATABASE, number, 8_192));
    assert_eq!((u32_at(&body, 40 + 68), u32_at(&body, 40 + 72)), (1_000, 1_001));
    trial.ask(opcode::GETATTR, number, &[0; 16]);
    let mut attributes = vec![0; 104];
    attributes[24] = 5;
    trial.answer(Ok(&attributes));
    let body = trial.reply().1.unwrap();
    assert_eq!((u64_at(&body, 16), u64_at(&body, 24), u32_at(&body, 16 + 68)), (number, 5, 1_000));
}

#[test]
fn the_times_are_those_at_which_the_position_was_first_seen() {
    let mut trial = Trial::linked(Settings::default());
    let mut times = |now, position: &[u8]| {
        trial.machine.set_time(now);
        trial.ask(opcode::LOOKUP, 1, b"app\0");
        trial.answer(Ok(position));
        trial.answer(Ok(&entry(DATABASE)));
        let body = trial.reply().1.unwrap();
        ([64, 72, 80].map(|at| u64_at(&body, at)), [88, 92, 96].map(|at| u32_at(&body, at)))
    };
    assert_eq!(times((50, 6), b"position two\n"), ([50; 3], [6; 3]));
    assert_eq!(times((60, 7), b"position two\n"), ([50; 3], [6; 3]));
    assert_eq!(times((70, 8), b"position three\n"), ([70; 3], [8; 3]));
}

#[test]
fn a_file_is_open_at_the_node_once() {
    let mut trial = Trial::linked(Settings::default());
    let number = trial.look_up(b"app", DATABASE);
    trial.ask(opcode::OPEN, number, &[0; 8]);
    assert_eq!(trial.asked(), [(opcode::OPEN, DATABASE)]);
    trial.answer(Ok(&opened(31)));
    let first = u64_at(&trial.reply().1.unwrap(), 0);
    trial.ask(opcode::OPEN, number, &[0; 8]);
    let second = u64_at(&trial.reply().1.unwrap(), 0);
    assert_eq!(trial.sent(), []);
    assert_ne!(first, second);
    trial.ask(opcode::READ, number, &at(second, 0, 100));
    let read = trial.sent().remove(0);
    assert_eq!((read.node, u64_at(&read.body, 0), u32_at(&read.body, 16)), (DATABASE, 31, 100));
    trial.answer(Ok(b"bytes"));
    assert_eq!(trial.reply().1, Ok(b"bytes".to_vec()));
    trial.ask(opcode::RELEASE, number, &closing(first, 0));
    assert_eq!(trial.sent(), []);
    trial.ask(opcode::RELEASE, number, &closing(second, 0));
    let release = trial.sent().remove(0);
    assert_eq!((release.opcode, u64_at(&release.body, 0)), (opcode::RELEASE, 31));
}

#[test]
fn of_two_handles_that_come_at_once_the_second_is_given_back() {
    let mut trial = Trial::linked(Settings::default());
    let number = trial.look_up(b"app", DATABASE);
    trial.ask(opcode::OPEN, number, &[0; 8]);
    trial.ask(opcode::OPEN, number, &[0; 8]);
    assert_eq!(trial.asked(), [(opcode::OPEN, DATABASE); 2]);
    trial.answer(Ok(&opened(31)));
    trial.answer(Ok(&opened(32)));
    let release = trial.sent().remove(0);
    assert_eq!((release.opcode, u64_at(&release.body, 0)), (opcode::RELEASE, 32));
    assert_eq!(trial.replies().len(), 2);
}

#[test]
fn all_but_the_shared_memory_are_opened_for_direct_io() {
    let mut trial = Trial::linked(Settings::default());
    for (name, node, direct) in [(&b"app"[..], DATABASE, true), (b"app-wal", LOG, true), (b"app-shm", SHARED, false)] {
        let number = trial.look_up(name, node);
        trial.ask(opcode::OPEN, number, &[0; 8]);
        trial.answer(Ok(&opened(7)));
        let actions = trial.actions();
        let Some(Action::Reply(reply)) = actions.last() else { panic!("{actions:?}") };
        assert_eq!((reply.open_at, u32_at(&reply.message, 24)), if direct { (None, 1) } else { (Some(24), 1) });
    }
}

#[test]
fn replies_come_in_order_to_requests_on_their_way_together() {
    let mut trial = Trial::linked(Settings::default());
    let (number, handle) = trial.opened(b"app", DATABASE, 5);
    let first = trial.ask(opcode::READ, number, &at(handle, 0, 4));
    let second = trial.ask(opcode::FSYNC, number, &at(handle, 0, 0)[..16]);
    assert_eq!(trial.asked().len(), 2);
    trial.answer(Ok(b"read"));
    assert_eq!(trial.reply(), (first, Ok(b"read".to_vec())));
    trial.answer(Ok(&[]));
    assert_eq!(trial.reply(), (second, Ok(vec![])));
}
