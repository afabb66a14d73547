#!/usr/bin/python3
"""The last version that a tag names and this one: as primary and replica both ways round, an upgrade of replica and primary in
turn under a running database, and each opens the other's data directory. LITEFS_OLD names another program as the old one. With
neither a tag nor LITEFS_OLD there is no older version, and it is skipped.

At most: 1500 seconds.
Seen to fail: an older program whose writes of the file `database` change one bit: the replica's pages are not the
primary's, and SQLite takes the schema in its directory for malformed."""
from support import Node, Skipped, connect, count, fill, in_each_mode, in_mode, places, run, same, seen_by, skip_all
from support.older import older


def follows(primary_program, replica_program, mode):
    with Node(program=primary_program) as primary:
        made = in_mode(primary.socket, mode)
        fill(made, range(10))
        with Node(primary, program=replica_program) as replica:
            primary.level(replica)
            fill(made, range(100, 110))
            primary.level(replica)
            at = connect(replica.socket)
            same(count(at), 20, 'rows at the replica')
            at.close()
            replica.sound(seen_by(made))


def old_primary(mode):
    follows(older(), places.program(), mode)


def new_primary(mode):
    follows(places.program(), older(), mode)


def opens(first, second, mode):
    """A directory that one program wrote under load, stopped by a kill, is opened and written by the other."""
    with Node(program=first) as node:
        made = in_mode(node.socket, mode)
        fill(made, range(30))
        seen, before = seen_by(made), node.position()
        made.close()
        node.kill()
        node.program = second
        node.start()
        same(node.position(), before, 'the position')
        made = connect(node.socket)
        same(seen_by(made) == seen, True, 'what SQLite sees')
        fill(made, range(100, 103))
        node.sound(seen_by(made))


def new_opens_old(mode):
    opens(older(), places.program(), mode)


def old_opens_new(mode):
    opens(places.program(), older(), mode)


def one_after_the_other(mode):
    """First the replica, then the primary, as docs/OPERATING.md says."""
    with Node(program=older()) as primary, Node(primary, program=older()) as replica:
        made = in_mode(primary.socket, mode)
        fill(made, range(10))
        primary.level(replica)
        replica.kill()
        replica.program = places.program()
        replica.start()
        fill(made, range(100, 110))
        primary.level(replica)
        made.close()
        primary.kill()
        primary.program = places.program()
        primary.start()
        made = connect(primary.socket)
        fill(made, range(200, 210))
        primary.level(replica)
        same(count(made), 30, 'rows')
        primary.sound(seen_by(made))


try:
    older()
except Skipped as skipped:
    skip_all(str(skipped))
run(in_each_mode(('delete', 'wal'), old_primary=old_primary, new_primary=new_primary, new_opens_old=new_opens_old,
                 old_opens_new=old_opens_new, one_after_the_other=one_after_the_other))
