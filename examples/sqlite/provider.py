#!/usr/bin/env python3
"""A provider of tables and rows in an SQLite database, the file that SQLITE_FILE names, or notes.db."""
import os
import sqlite3

from bixundor import Failed, provider, resource

FILE = os.environ.get("SQLITE_FILE", "notes.db")


def run(statement, *values):
    """Runs a statement, commits it, and returns the rows and the number of the row that was added."""
    database = sqlite3.connect(FILE, timeout=60)
    try:
        with database:
            done = database.execute(statement, values)
            return done.fetchall(), done.lastrowid
    except sqlite3.Error as error:
        raise Failed(str(error)) from error
    finally:
        database.close()


def quoted(name):
    return '"' + name.replace('"', '""') + '"'


@resource("sqlite_table", name="string! force_new", columns="any! force_new", id="string computed")
class Table:
    def create(self, want):
        run(f"create table {quoted(want['name'])} ({', '.join(quoted(it) for it in want['columns'])})")
        return {**want, "id": want["name"]}

    def update(self, prior, want):
        return {**want, "id": want["name"]}

    def destroy(self, prior):
        run(f"drop table if exists {quoted(prior['name'])}")


@resource("sqlite_row", table="string! force_new", column="string! force_new", value="string!", id="number computed")
class Row:
    def create(self, want):
        _, key = run(f"insert into {quoted(want['table'])} ({quoted(want['column'])}) values (?)", want["value"])
        return {**want, "id": key}

    def update(self, prior, want):
        run(f"update {quoted(want['table'])} set {quoted(want['column'])} = ? where rowid = ?", want["value"], prior["id"])
        return {**want, "id": prior["id"]}

    def destroy(self, prior):
        run(f"delete from {quoted(prior['table'])} where rowid = ?", prior["id"])


provider(Table, Row)
