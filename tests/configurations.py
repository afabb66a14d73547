#!/usr/bin/python3
"""Commands and configurations that are wrong, and places that are taken: the status and the line on standard error that docs/COMMANDS.md
has for each; in front of it, of a configuration, the line that says which key is wrong, where it stands and what was wanted. And
configurations that are right: the node answers. Of a place, why it can't be had.

At most: 600 seconds.
Seen to fail: a node that doesn't lock its directory: a second one comes as far as the socket, and says network failed."""
import os
import socket
import tempfile

from support import Node, Skipped, holds, in_mode, outcome, places, run, same, until

CONFIG = (3, 'litefs: input refused: Config\n')
DISK = (5, 'litefs: disk failed\n')
NETWORK = (7, 'litefs: network failed\n')
WORDS = (2, 'litefs: words refused\n')
LEASE = '[lease]\nadvertise-url = "http://127.0.0.1:9"\nhostname = "h"\n'
RIGHT = 'database = "app"\n' + LEASE
URL = 'a URL, http://host:port'
URLS = 'an array of 1 to 16 URLs, each http://host:port'
# what is wrong with the keys of crates/node_settings: each text is refused as Config, behind a line that says where and what was wanted
WRONG = {
    'empty': ('', 'litefs.toml: database: wanted the name of a database; the key is missing'),
    'no_toml': ('database', 'litefs.toml:1: wanted TOML in UTF-8'),
    'no_toml_behind_comments': ('# one\n\n' + RIGHT + '[data\n', 'litefs.toml:7: wanted TOML in UTF-8'),
    'no_database': (LEASE, 'litefs.toml: database: wanted the name of a database; the key is missing'),
    'database_no_text': (RIGHT.replace('"app"', '5'), 'litefs.toml:1: database: wanted the name of a database'),
    'database_named_as_its_log': (RIGHT.replace('app', 'app-wal'), 'litefs.toml:1: database: wanted the name of a database'),
    'database_with_a_slash': (RIGHT.replace('app', 'a/b'), 'litefs.toml:1: database: wanted the name of a database'),
    'log_no_word': ('\nlog = true\n' + RIGHT, 'litefs.toml:2: log: wanted on or off, as a text'),
    'no_url': ('database = "app"\n[lease]\nhostname = "h"\n', f'litefs.toml: lease.advertise-url: wanted {URL}; the key is missing'),
    'no_hostname': ('database = "app"\n[lease]\nadvertise-url = "http://h:1"\n',
                    'litefs.toml: lease.hostname: wanted a text; the key is missing'),
    'url_of_another_scheme': (RIGHT.replace('http:', 'https:'), f'litefs.toml:3: lease.advertise-url: wanted {URL}'),
    'url_without_a_port': (RIGHT.replace(':9', ''), f'litefs.toml:3: lease.advertise-url: wanted {URL}'),
    'url_with_a_path': (RIGHT.replace(':9', ':9/'), f'litefs.toml:3: lease.advertise-url: wanted {URL}'),
    'port_past_its_limit': ('http.addr = ":65536"\n' + RIGHT, 'litefs.toml:1: http.addr: wanted an address, host:port'),
    'address_without_a_port': ('http.addr = "localhost"\n' + RIGHT, 'litefs.toml:1: http.addr: wanted an address, host:port'),
    'keep_nothing': ('# files\ndata.retention-files = 0\n' + RIGHT,
                     'litefs.toml:2: data.retention-files: wanted a number from 1 to 9223372036854775807'),
    'compressed': ('data.compress = true\n' + RIGHT, 'litefs.toml:1: data.compress: wanted false'),
    'lease_service': (RIGHT + 'type = "service"\n',
                      f'litefs.toml: lease.service-url: wanted {URL}, since lease.type is service; the key is missing'),
    'etcd_nowhere': (RIGHT + 'type = "etcd"\n', f'litefs.toml: lease.etcd.endpoints: wanted {URLS}, since lease.type is etcd; the key is missing'),
    'etcd_key_alone': (RIGHT + '[lease.etcd]\nkey = "k"\n',
                       f'litefs.toml: lease.etcd.endpoints: wanted {URLS}, since lease.etcd.key is there; the key is missing'),
    'etcd_of_a_second': (RIGHT + 'type = "etcd"\nttl = 1999\netcd.endpoints = ["http://127.0.0.1:1"]\n',
                         'litefs.toml:6: lease.ttl: wanted a number of milliseconds from 2000 to 86400000, since lease.type is etcd'),
    'etcd_with_tls': (RIGHT + '[lease.etcd]\nendpoints = ["https://127.0.0.1:1"]\n', f'litefs.toml:6: lease.etcd.endpoints: wanted {URLS}'),
    'etcd_with_a_user': (RIGHT + 'etcd.user = "root"\n', 'litefs.toml:5: lease.etcd.user: wanted no key of this name'),
    'etcd_with_an_empty_key': (RIGHT + 'etcd = { endpoints = ["http://127.0.0.1:1"], key = "" }\n',
                               'litefs.toml:5: lease.etcd.key: wanted a text of 1 to 1000 bytes'),
    'lease_of_no_time': (RIGHT + 'candidate = true\nttl = 0\n',
                         'litefs.toml:6: lease.ttl: wanted a number of milliseconds from 1 to 86400000'),
    'candidate_no_boolean': (RIGHT + 'candidate = "yes"\n', 'litefs.toml:5: lease.candidate: wanted true or false'),
    'two_keys_of_which_the_first_rule_counts': (RIGHT + 'ttl = 0\ncandidate = "yes"\n', 'litefs.toml:6: lease.candidate: wanted true or false'),
    'key_misspelled': (RIGHT + 'candidat = true\n', 'litefs.toml:5: lease.candidat: wanted no key of this name'),
    'key_of_litefs_that_is_not_here': ('fuse.allow-other = true\n' + RIGHT, 'litefs.toml:1: fuse.allow-other: wanted no key of this name'),
    'proxy_without_a_target': ('proxy.addr = ":8080"\n' + RIGHT,
                               'litefs.toml: proxy.target: wanted an address with a host, host:port, since proxy.addr is there; the key is missing'),
    'proxy_of_nobody': ('proxy.addr = ":8080"\nproxy.target = ":80"\n' + RIGHT,
                        'litefs.toml:2: proxy.target: wanted an address with a host, host:port'),
    'program_without_a_folder': ('fuse.program = "p"\n' + RIGHT,
                                 'litefs.toml: fuse.dir: wanted a path, since fuse.program is there; the key is missing'),
    'folder_without_a_name': ('fuse.dir = ""\n' + RIGHT, 'litefs.toml:1: fuse.dir: wanted a path that is not empty'),
    'permit_of_no_time': (RIGHT + 'halt-ttl = 0\n', 'litefs.toml:5: lease.halt-ttl: wanted a number of milliseconds from 1 to 86400000'),
    'bootstrap_of_a_number': (RIGHT + 'bootstrap = 1\n', 'litefs.toml:5: lease.bootstrap: wanted true or false'),
    'key_with_a_newline': (RIGHT + '"a\\nb" = true\n', 'litefs.toml:5: lease.?: wanted no key of this name'),
    'key_twice': (RIGHT + 'hostname = "h"\n', 'litefs.toml:5: wanted TOML in UTF-8'),
    'table_no_table': ('fuse = "s"\n' + RIGHT, 'litefs.toml:1: fuse: wanted a table'),
    'past_65536_bytes': (RIGHT + '#' * (65537 - len(RIGHT)), 'litefs.toml: wanted at most 65536 bytes'),
}
ADDRESS = 'http.addr = "127.0.0.1:0"\n'
ACCEPTED = {
    'defaults': (ADDRESS + RIGHT, 'litefs.sock'),
    'of_65536_bytes': (ADDRESS + RIGHT + '#' * (65536 - len(ADDRESS + RIGHT)), 'litefs.sock'),
    'inline_tables': ('database = "app"\nhttp = { addr = "127.0.0.1:0" }\nfuse = { listen = "here" }\n'
                      'lease = { candidate = true, advertise-url = "http://h:1", hostname = "h" }\n', 'here'),
    'every_key': ('database = "app"\n[fuse]\nlisten = "s"\ndir = "m"\nprogram = "./p"\n[http]\naddr = "[::1]:0"\n[data]\ncompress = false\nretention-files = 0x10\n'
                  '[proxy]\naddr = "127.0.0.1:0"\ntarget = "localhost:1"\n[lease]\ntype = "static"\ncandidate = true\nbootstrap = true\nadvertise-url = "http://[::1]:1"\nhostname = "h"\n'
                  'service-url = "http://h:2"\nttl = 1_000\nhalt-ttl = 2_000\n[lease.etcd]\nendpoints = ["http://h:3", "http://[::1]:3"]\nkey = "k"\n', 's'),
}


def behind(said, outcome):
    """The outcome with this line in front of its own."""
    status, line = outcome
    return status, f'litefs: {said}\n{line}'


def refused(text, said):
    with Node(starts=False) as node:
        node.configure(text)
        same(node.outcome(), behind(said, CONFIG), 'how it ends')
        same(sorted(os.listdir(node.folder)), ['litefs.toml'], 'the folder')


def accepted(text, name):
    if '[::1]' in text and not has_ipv6():
        raise Skipped('no IPv6 here')
    with Node(starts=False) as node:
        node.configure(text)
        node.socket = os.path.join(node.folder, name)
        node.start()
        until(node.lines, 'the line of its start')
        same(node.lines()[0][:6], 'start ', 'how it begins')


def has_ipv6():
    try:
        socket.create_server(('::1', 0), family=socket.AF_INET6).close()
        return True
    except OSError:
        return False


def no_file():
    with tempfile.TemporaryDirectory() as folder:
        same(outcome(places.program(), ['mount'], folder), (1, 'litefs: cannot read\n'), 'without litefs.toml')


def words():
    for given in ([], ['--help'], ['--'], ['mount', 'x'], ['apply', 'compact'], ['Mount'], ['']):
        same(outcome(places.program(), given), WORDS, f'the words {given}')


def directory_in_use():
    with Node() as node:
        same(node.outcome(), behind('cannot open dbs/app: another process has it', DISK), 'a second node in the folder')
        node.position()


def directory_no_folder():
    with Node(starts=False) as node:
        with open(os.path.join(node.folder, 'dbs'), 'w'):
            pass
        same(node.outcome(), behind('cannot open dbs/app: not a directory, errno 020', DISK), 'where dbs is a file')


def socket_in_use():
    with Node() as other, Node(starts=False) as node:
        node.configure(other_socket(node, other.socket))
        same(node.outcome(), unheard(other.socket, 'another process has it'), 'a socket on which another node listens')
        other.position()


def socket_no_socket():
    with Node(starts=False) as node:
        with open(node.socket, 'w') as file:
            file.write('mine')
        same(node.outcome(), unheard('app.sock', 'a file that is no socket has the path'), 'a file at the path of the socket')
        same(open(node.socket).read(), 'mine', 'that file')


def socket_without_a_folder():
    with Node(starts=False) as node:
        path = os.path.join(node.folder, 'absent', 'app.sock')
        node.configure(other_socket(node, path))
        same(node.outcome(), unheard(path, 'no such file or directory, errno 002'), 'a socket in a folder that is not there')


def socket_path_too_long():
    """A path of a Unix socket has at most 107 bytes."""
    with Node(starts=False) as node:
        node.configure(other_socket(node, 's' * 108))
        same(node.outcome(), unheard('s' * 108, "a socket's path has at most 107 bytes"), 'a path of 108 bytes')


def socket_left_behind():
    """The file that a killed node leaves is no hindrance."""
    with Node() as node:
        node.kill()
        holds(os.path.exists(node.socket), 'a kill leaves the socket file')
        node.start()


def port_in_use():
    with Node(starts=False) as node, socket.create_server(('127.0.0.1', node.port)):
        same(node.outcome(), unheard(f'127.0.0.1:{node.port}', 'address in use, errno 098'), 'a port that is taken')


def address_of_another_machine():
    """192.0.2.1 is for documents (RFC 5737): no machine has it."""
    with Node(starts=False) as node:
        with open(os.path.join(node.folder, 'litefs.toml')) as file:
            text = file.read()
        node.configure(text.replace(f'"127.0.0.1:{node.port}"', f'"192.0.2.1:{node.port}"'))
        same(node.outcome(), unheard(f'192.0.2.1:{node.port}', 'no address of this machine, errno 099'), 'its outcome')


def unheard(place, why):
    return behind(f'cannot listen on {place}: {why}', NETWORK)


def other_socket(node, path):
    with open(os.path.join(node.folder, 'litefs.toml')) as file:
        return file.read().replace('app.sock', path)


def primary_out_of_reach():
    """A replica whose primary is not there goes on and answers."""
    with Node() as primary:
        in_mode(primary.socket, 'wal').close()
        primary.kill()
        with Node(following=primary) as replica:
            same(replica.position().txid, 0, 'its position')
            primary.start()
            primary.level(replica)


ALONE = (no_file, words, directory_in_use, directory_no_folder, socket_in_use, socket_no_socket, socket_without_a_folder,
         socket_path_too_long, socket_left_behind, port_in_use, address_of_another_machine, primary_out_of_reach)
run({**{f'refused-{name}': lambda given=given: refused(*given) for name, given in WRONG.items()},
     **{f'accepted-{name}': lambda given=given: accepted(*given) for name, given in ACCEPTED.items()},
     **{call.__name__: call for call in ALONE}})
