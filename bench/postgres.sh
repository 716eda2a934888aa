#!/usr/bin/env bash
# The same table read by PostgreSQL with row security and by the library: 104,857 rows of 10 bytes, of which a session may read 70 %.
# A policy asks of a row's label what our read rule asks: its level, its compartments and its groups. Starts a server of its own in
# a temporary folder, on a socket there, and stops and removes it at the end. Installs nothing: where there is no server program
# it says so, and nothing is measured. As root the server runs as the user postgres, or nobody. Without
# target/staticlib/libabi.a the plain version is measured in place of ours.
set -eu -o pipefail
cd "$(dirname "$0")"
call=read-10
times=11

# The folder of the server's programs: that of the one on the path, else the newest that Debian has.
server_folder() {
    local found
    for found in "$(command -v postgres || true)" $(ls -d /usr/lib/postgresql/*/bin/postgres 2>/dev/null | sort -rV); do
        if [ -x "$found" ]; then dirname "$(readlink -f "$found")" && return; fi
    done
}
programs=$(server_folder)
if [ -z "$programs" ]; then
    echo 'postgres: there is no PostgreSQL server program here, so nothing was measured'
    exit 0
fi
. ./counted.sh

folder=$(mktemp -d)
as_owner() { (cd "$folder" && "$@"); }
if [ "$(id -u)" = 0 ]; then
    owner=$(id -un postgres 2>/dev/null || echo nobody)
    chown "$owner" "$folder"
    as_owner() { (cd "$folder" && runuser -u "$owner" -- "$@"); }
fi
stop() {
    as_owner "$programs/pg_ctl" -D data -m immediate stop >/dev/null 2>&1 || true
    rm -rf "$folder"
}
trap stop EXIT
trap 'exit 1' INT TERM HUP

as_owner "$programs/initdb" -D data -U postgres -A trust --locale=C -E UTF8 --no-sync >/dev/null
as_owner "$programs/pg_ctl" -D data -l log -w -o "-k $folder -c listen_addresses=''" start >/dev/null ||
    { cat "$folder/log" >&2 && exit 1; }
by() {
    local user=$1
    shift
    "$programs/psql" -X -q -v ON_ERROR_STOP=1 -h "$folder" -U "$user" -d postgres "$@"
}

# The reader neither owns the tables nor may go round row security.
tables() {
    cat <<'SQL'
create table labels (tag int primary key, level int not null, compartments bigint not null, groups bigint not null);
create table sessions (name name primary key, level int not null, compartments bigint not null, groups bigint not null,
    compaccess boolean not null);
create table entries (tag int not null, payload bytea not null);
create role reader login nosuperuser nobypassrls;
grant select on labels, sessions, entries to reader;
alter table entries enable row level security;
SQL
    "$bench" sql "$call"
    echo 'vacuum analyze;'
}

# What a row's label l and the session s have to fulfil. The session's groups have those below them. The server finds the tags
# that the session reads once for each statement, and then asks of each row whether its tag is among them.
policy() {
    cat <<'SQL'
create policy reads on entries for select to reader using (tag in (
    select l.tag from labels l, sessions s
    where s.name = current_user and l.level <= s.level and l.compartments & ~s.compartments = 0
        and (l.groups = 0 or l.groups & s.groups <> 0 or s.compaccess and l.compartments <> 0)));
SQL
}

# The median of some numbers.
median() { sort -g | awk '{ n[NR] = $1 } END { print n[int((NR + 1) / 2)] }'; }

# A statement several times in one session, after two that aren't measured: a line with the milliseconds of each, as psql tells
# them, until it has all that is handed out.
milliseconds() {
    { echo '\o /dev/null' && for _ in 1 2; do echo "$1"; done && echo '\timing on' && for _ in $(seq "$times"); do echo "$1"; done; } |
        by reader | sed -nE 's/^Time: ([0-9.]+) ms.*/\1/p'
}

# A line of the table: the reader, the rows handed out, and the milliseconds. All rows of the table are gone through, so that many
# a second are told.
line() {
    awk -v name="$1" -v rows="$rows" -v read="$2" -v ms="$3" \
        'BEGIN { printf "%-36s %10d %10d %10.3f %14.0f\n", name, rows, read, ms, rows * 1000 / ms }'
}

{ tables && policy; } | by postgres
rows=$("$bench" rows "$call")
selecting='select tag, payload from entries;'
counting='select count(*) from entries;'
handed=$(by reader -At -c "$counting")
for version in $("$bench" versions); do
    read=$("$bench" "$version" "$call" answer)
    if [ "$handed" != "$read" ]; then
        echo "postgres: PostgreSQL hands out $handed rows, and $version $read" >&2
        exit 1
    fi
done
"$programs/postgres" --version
printf '%-36s %10s %10s %10s %14s\n' reader rows 'handed out' ms 'rows a second'
line 'PostgreSQL, to the client' "$handed" "$(milliseconds "$selecting" | median)"
line 'PostgreSQL, counted in the server' "$handed" "$(milliseconds "$counting" | median)"
for version in $("$bench" versions); do
    line "$version, $call, check included" "$handed" "$("$bench" "$version" "$call" time | awk '{ print $1 / 1000000 }')"
done
echo 'postgres: all hand out the same number of rows'
