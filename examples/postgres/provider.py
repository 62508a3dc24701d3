#!/usr/bin/env python3
"""A provider of roles, databases, tables and grants in PostgreSQL, by `psql`. PGHOST, PGUSER and so on name the server.

The comment on a role, a database or a table is `bixundor ADDRESS ID`. It is written in the transaction that makes the object, so the
provider recognizes an object that it made, even if its reply was lost. With PG_ADOPT=yes, a create keeps such an object.
"""
import hashlib
import json
import os
import re
import secrets
import subprocess
import sys

from bixundor import Failed, address, provider, resource

ENVIRONMENT = {"PGCONNECT_TIMEOUT": "10", **os.environ, "PGCLIENTENCODING": "UTF8", "LC_ALL": "C"}
TYPE = re.compile(r"[a-z][a-z0-9_ ]*(\([0-9]+(, *[0-9]+)?\)[a-z ]*)?(\[\])*", re.IGNORECASE)
PRIVILEGES = ("select", "insert", "update", "delete", "truncate", "references", "trigger")
COMMENTS = {
    "role": "select shobj_description(oid, 'pg_authid') as comment from pg_roles where rolname = {}",
    "database": "select shobj_description(oid, 'pg_database') as comment from pg_database where datname = {}",
    "table": "select obj_description(oid, 'pg_class') as comment from pg_class where relnamespace = 'public'::regnamespace and relname = {}",
}


def quoted(name):
    """Returns a name as it is written in SQL. PostgreSQL would cut off a longer one, and take it for another."""
    if len(name.encode()) > 63:
        raise Failed(f"the name {name} has more than 63 bytes")
    return '"' + name.replace('"', '""') + '"'


def literal(text):
    """Returns a text as it is written in SQL."""
    return "E'" + text.replace("\\", "\\\\").replace("'", "''") + "'"


def run(statements, database="postgres", *words):
    """Runs statements and returns the rows, each of which is JSON. With the word --single-transaction all are carried out or none."""
    if "\0" in statements + database:
        raise Failed("PostgreSQL has no texts with the character 0")
    # As the value of an option, the database's name could be read as a connection string.
    environment = {**ENVIRONMENT, "PGDATABASE": database}
    words = ["psql", "--no-psqlrc", "--quiet", "--tuples-only", "--no-align", "--set=ON_ERROR_STOP=1", *words]
    ran = subprocess.run(words, input=statements.encode(), env=environment, capture_output=True, check=False)
    if ran.returncode:
        lines = (" ".join(it.split()) for it in ran.stderr.decode(errors="replace").split("\n"))
        raise Failed("; ".join(it for it in lines if re.match("psql: error:|(ERROR|FATAL|DETAIL):", it)))
    return [json.loads(it) for it in ran.stdout.split(b"\n") if it]


def run_all(statements, database="postgres"):
    return run(statements, database, "--single-transaction")


def comment_on(kind, name, database="postgres"):
    """Returns the comment on an object, or None if there is no such object."""
    rows = run(f"select to_json(coalesce(comment, '')) from ({COMMENTS[kind].format(literal(name))}) as found", database)
    return rows[0] if rows else None


class Marked:
    """A type whose objects have the comment. A class says how its objects are made, changed and dropped."""

    def database(self, _):
        return "postgres"

    def comment(self, it):
        return comment_on(self.kind, it["name"])

    def create(self, want):
        made = {**want, "id": secrets.token_hex(8)}
        self.add(made)
        return made

    def add(self, want):
        """Makes an object, unless one is there that this resource made and that may be adopted."""
        found, mark = self.comment(want), self.mark(want)
        if found is None:
            self.make(want, mark)
        elif not found.startswith(f"bixundor {address()} "):
            raise Failed(f"the {self.kind} {want['name']} exists already")
        elif os.environ.get("PG_ADOPT") == "yes":
            run_all(self.changes(want, mark), self.database(want))
        else:
            raise Failed(f"the {self.kind} {want['name']} exists already. {address()} made it: to keep it, set PG_ADOPT=yes")

    def mark(self, it):
        return literal(f"bixundor {address()} {it['id']}")

    def is_there(self, prior):
        """Returns whether this object is there. If one with another id is there, it was made after this one."""
        comment = self.comment(prior)
        if comment is not None and not comment.startswith("bixundor "):
            raise Failed(f"the comment on the {self.kind} {prior['name']} isn't the one that it was made with")
        return comment is not None and comment.endswith(f" {prior['id']}")

    def update(self, prior, want):
        if self.is_there(prior):
            run_all(self.changes(want, self.mark(want)), self.database(want))
        else:
            self.add(want)
        return want

    def destroy(self, prior):
        if self.is_there(prior):
            self.drop(prior)
        else:
            print(f"{address()}: the {self.kind} {prior['name']} was gone already", file=sys.stderr)


@resource("pg_role", name="string! force_new", login="bool", id="string computed")
class Role(Marked):
    kind = "role"

    def make(self, want, mark):
        run_all(f"create role {quoted(want['name'])}; {self.changes(want, mark)}")

    def changes(self, want, mark):
        name = quoted(want["name"])
        return f"alter role {name} {'login' if want['login'] else 'nologin'}; comment on role {name} is {mark}"

    def drop(self, prior):
        run(f"drop role {quoted(prior['name'])}")


@resource("pg_database", name="string! force_new", owner="string", id="string computed")
class Database(Marked):
    kind = "database"

    def make(self, want, mark):
        """PostgreSQL makes a database outside any transaction, so it is made under another name, and gets its own with the comment."""
        name, draft = quoted(want["name"]), quoted(f"bixundor {hashlib.sha256(address().encode()).hexdigest()[:32]}")
        run(f"drop database if exists {draft};\ncreate database {draft};")
        try:
            run_all(f"alter database {draft} rename to {name}; {self.changes(want, mark)}")
        except Failed:
            run(f"drop database if exists {draft}")
            raise

    def changes(self, want, mark):
        name, owner = quoted(want["name"]), quoted(want["owner"]) if want["owner"] is not None else "current_user"
        return f"comment on database {name} is {mark}; alter database {name} owner to {owner}"

    def drop(self, prior):
        run(f"drop database {quoted(prior['name'])}")


@resource("pg_table", database="string! force_new", name="string! force_new", columns="any!", id="string computed")
class Table(Marked):
    kind = "table"

    def database(self, it):
        return it["database"]

    def comment(self, it):
        return comment_on("table", it["name"], it["database"]) if comment_on("database", it["database"]) is not None else None

    def columns(self, want):
        """Returns the types of the wanted columns, by their names as they are written in SQL."""
        columns = want["columns"]
        if not isinstance(columns, dict) or not all(isinstance(it, str) and TYPE.fullmatch(it) for it in columns.values()):
            raise Failed("columns isn't an object of types, such as {\"id\": \"bigint\", \"price\": \"numeric(10, 2)\"}")
        return {quoted(name): of for name, of in columns.items()}

    def make(self, want, mark):
        name, columns = quoted(want["name"]), ", ".join(f"{name} {of}" for name, of in self.columns(want).items())
        run_all(f"create table public.{name} ({columns}); comment on table public.{name} is {mark}", want["database"])

    def changes(self, want, mark):
        """Returns the statements that give a table the wanted columns, whichever it has."""
        name, columns = quoted(want["name"]), self.columns(want)
        is_column = f"attrelid = {literal('public.' + name)}::regclass and attnum > 0 and not attisdropped"
        there = [quoted(it) for it in run(f"select to_json(attname) from pg_attribute where {is_column}", want["database"])]
        steps = [f"drop column {it}" for it in there if it not in columns]
        steps += [f"alter column {it} type {of} using {it}::{of}" for it, of in columns.items() if it in there]
        steps += [f"add column {it} {of}" for it, of in columns.items() if it not in there]
        return "; ".join([f"alter table public.{name} {', '.join(steps)}"] * bool(steps) + [f"comment on table public.{name} is {mark}"])

    def drop(self, prior):
        run(f"drop table public.{quoted(prior['name'])}", prior["database"])


@resource("pg_grant", database="string! force_new", table="string! force_new", role="string! force_new", privileges="any!")
class Grant:
    """A role has exactly these privileges on a table."""

    def create(self, want):
        privileges = want["privileges"]
        if not isinstance(privileges, list) or not privileges or not all(it in PRIVILEGES for it in privileges):
            raise Failed(f"privileges isn't a list of some of {', '.join(PRIVILEGES)}")
        self.set(want, f"; grant {', '.join(privileges)} on public.{quoted(want['table'])} to {quoted(want['role'])}")
        return want

    def update(self, prior, want):
        return self.create(want)

    def destroy(self, prior):
        has_role = prior["role"] == "public" or comment_on("role", prior["role"]) is not None
        if has_role and Table().comment({"name": prior["table"], "database": prior["database"]}) is not None:
            self.set(prior, "")

    def set(self, it, grant):
        """Takes all privileges and grants others. The lock keeps out other grants on this table, which would fail otherwise."""
        table, role = f"public.{quoted(it['table'])}", quoted(it["role"])
        run_all(f"lock table {table} in share update exclusive mode; revoke all on {table} from {role}{grant}", it["database"])


provider(Role, Database, Table, Grant)
