//! The examples of the libraries of plans in files. `lib.rt` and the `README.md` of each have the lines between the two
//! marks. `tools/gate/examples` compiles and runs this file, without a proof: a proof of these
//! takes many minutes.
ghost use Rattle.std.specs.Prelude.{◌≡◌, ⊤, false, IfOk};

use crate::plans::{other, plan, settled};
use plan_files::{Opening, StartingPlan, run_over_connection};
use plan_files_closing::close_connection;
use plan_migrations::{migrate, version};
use plan_migrations_remaking::{are_first, are_typed, first_select_text, make_first_tables};
use plan_store::{Need, PlanStore};
use plan_tables::TableStore;
use plan_tables_opening::{has_meta, open_content};
use plan_tables_schema::Table;
use sqlite::{Alter, Connection, FileStore, Files, Options};
use sqlite_disk::{Disk, Memory};
use std::alloc::Global;
use std::process::Abort;
use std::test::Fail;

fn opened<S: Alter + Drop>(rt: &impl Abort, alloc: Global, conn: Connection<S>) -> Result<(), Fail>
    requires { conn.in_transaction ≡ false }
{
    let mut conn = conn;
    // example of plan_tables_opening
    // an empty database gets the tables of a plan of which nothing is known
    assert!(rt; !has_meta(&conn));
    let content = open_content(alloc, &mut conn)?;
    assert!(rt; content.bounds.is_none() && has_meta(&conn));
    // end of the example
    Ok(())
}

#[test]
fn example_of_plan_tables_opening(rt: HostRuntime) -> Result<(), Fail> {
    let conn = other(rt.alloc(), "")?;
    opened(&rt, rt.alloc(), conn)
}

fn adopted<S: Alter + Drop>(rt: &impl Abort, alloc: Global, conn: Connection<S>) -> Result<(), Fail>
    requires { conn.in_transaction ≡ false }
{
    // example of plan_tables
    // the store of a planner before its first statement, over an empty database
    let Ok(mut store) = TableStore::adopt(alloc, conn) else {
        return Err(Fail::new("not adopted"));
    };
    assert!(rt; store.bounds()?.is_none() && store.job(alloc, 7)?.is_none());
    let view = store.read_window(alloc, Need::LongTerm(None))?;
    assert_eq!(rt; view.issued(), 0);
    // end of the example
    Ok(())
}

#[test]
fn example_of_plan_tables(rt: HostRuntime) -> Result<(), Fail> {
    let conn = other(rt.alloc(), "")?;
    adopted(&rt, rt.alloc(), conn)
}

fn migrated<S: Alter + Drop>(
    rt: &impl Abort,
    alloc: Global,
    conn: Connection<S>,
) -> Result<(), Fail>
    requires { conn.in_transaction ≡ false }
{
    let mut conn = conn;
    // example of plan_migrations
    // a plan of the current schema stays as it is
    assert_eq!(rt; version(alloc, &mut conn)?, Some(2));
    assert_eq!(rt; migrate(alloc, &mut conn)?, (2, 2));
    // end of the example
    Ok(())
}

#[test]
fn example_of_plan_migrations(rt: HostRuntime) -> Result<(), Fail> {
    let conn = plan(rt.alloc(), "")?;
    migrated(&rt, rt.alloc(), conn)
}

fn made_first<S: Alter + Drop>(rt: &impl Abort, conn: Connection<S>) -> Result<(), Fail>
    requires { conn.in_transaction ≡ false }
{
    let mut conn = conn;
    // example of plan_migrations_remaking
    // a link of schema 1 has no hours
    make_first_tables(&mut conn)?;
    conn.execute_batch("INSERT INTO link_in_force VALUES ('B', 'A')")?;
    let rows = conn.query_all(first_select_text(Table::LinkInForce), &[])?;
    assert_eq!(rt; rows.len(), 1);
    assert!(rt; are_first(Table::LinkInForce, &rows) && !are_typed(Table::LinkInForce, &rows));
    // end of the example
    Ok(())
}

#[test]
fn example_of_plan_migrations_remaking(rt: HostRuntime) -> Result<(), Fail> {
    let conn = other(rt.alloc(), "")?;
    made_first(&rt, conn)
}

/// A connection to the files.
fn connected<D: Disk + Drop>(
    alloc: Global,
    files: Files<D>,
) -> Result<Connection<FileStore<D>>, Fail>
    ensures { IfOk result (λ conn. conn.in_transaction ≡ false) }
{
    if !files.may_be_used() {
        return Err(Fail::new("not usable"));
    }
    match Connection::open_files(alloc, files, Options::new(1)) {
        Ok(conn) => match settled(conn) {
            Ok(conn) => Ok(conn),
            Err(_) => Err(Fail::new("in a transaction")),
        },
        Err(_) => Err(Fail::new("not opened")),
    }
}

fn closed<D: Disk + Drop>(rt: &impl Abort, alloc: Global, files: Files<D>) -> Result<(), Fail> {
    let mut conn = connected(alloc, files)?;
    // example of plan_files_closing
    // the log has a table, and is copied into the database file
    conn.execute_batch("CREATE TABLE t (x INTEGER)")?;
    let closed = close_connection(alloc, conn);
    assert!(rt; closed.was_open && closed.copied.is_ok());
    // end of the example
    Ok(())
}

#[test]
fn example_of_plan_files_closing(rt: HostRuntime) -> Result<(), Fail> {
    let log = Memory::new(rt.alloc());
    let db = Memory::new(rt.alloc());
    closed(&rt, rt.alloc(), Files { log, db })
}

/// Gives a text to read, if the run begins with a new plan.
#[derive(Drop)]
struct IfNew<'a> {
    text: &'a [u8],
}

impl<'a> Opening<&'a [u8]> for IfNew<'a> {
    ghost reports = { λ opening begun given. ⊤ };

    fn opened(self, begun: StartingPlan) -> &'a [u8] {
        match begun {
            StartingPlan::New => self.text,
            _ => b"".as_slice(),
        }
    }
}

fn ran<D: Disk + Drop>(rt: &impl Abort, alloc: Global, files: Files<D>) -> Result<(), Fail> {
    let conn = connected(alloc, files)?;
    // example of plan_files
    // the files hold no plan, so they get one, and the reader has a line; it is no statement
    let opening = IfNew { text: b"help\n".as_slice() };
    let mut writer = Vec::new(alloc);
    let Ok((ended, _)) = run_over_connection(alloc, conn, opening, &mut writer) else {
        return Err(Fail::new("not run"));
    };
    assert!(rt; ended.is_whole && ended.closed.copied.is_ok());
    assert_eq!(rt; writer.as_slice(), b"refused 10\n".as_slice());
    // end of the example
    Ok(())
}

#[test]
fn example_of_plan_files(rt: HostRuntime) -> Result<(), Fail> {
    let log = Memory::new(rt.alloc());
    let db = Memory::new(rt.alloc());
    ran(&rt, rt.alloc(), Files { log, db })
}
