//! The examples of the libraries of tables of a database. `lib.rt` and the `README.md` of each have the lines between the two
//! marks. `tools/gate/examples` compiles and runs this file, without a proof: a proof of these
//! takes many minutes.
ghost use Rattle.std.specs.Prelude.{◌≡◌, false, IfOk};

use app_definition_records::ByName;
use app_definitions::Definitions;
use occurrences::{Key, Origin, Refusal, Reply, Row, Serial};
use plan_store::{Change, Content, Need};
use plan_tables_constraints::fitting_changes_are_accepted;
use plan_tables_content::answer_line;
use plan_tables_definitions::calendar_rows;
use plan_tables_loading::{content_of_lists, read_lists};
use plan_tables_lookups::{history_of_serial, last_of};
use plan_tables_queries::{completed_of, completed_row, deleted_row};
use plan_tables_schema::{Table, make_tables, select};
use plan_tables_windows::load_for_need;
use plan_tables_writing::{DefinitionMoves, commit_change};
use sqlite::{Connection, Error, MemStore};
use std::alloc::Global;
use std::test::Fail;
use work_calendars::{App, Calendar, DayStatus, Moment, Name, Weekday};

/// The tables of a plan, without rows.
fn tables(alloc: Global) -> Result<Connection<MemStore>, Error>
    ensures { IfOk result (λ conn. conn.in_transaction ≡ false) }
{
    let mut conn = Connection::open_in_memory(alloc)?;
    if conn.is_autocommit() {
        make_tables(&mut conn)?;
    }
    if conn.is_autocommit() {
        Ok(conn)
    } else {
        Err(Error::InvalidQuery)
    }
}

/// The same without a plan, and with two rows of history: A at 08.00 on 2024-01-01 and on 2024-01-02.
fn history(alloc: Global) -> Result<Connection<MemStore>, Error> {
    let mut conn = tables(alloc)?;
    conn.execute_batch(
        "INSERT INTO plan_meta VALUES (1, 2, 0, 0, 0, 0, 2, 'DEFAULT', 504); \
        INSERT INTO history_row VALUES (1, 'A', 28401600, 28402200, NULL), (2, 'A', 28403040, 28403640, NULL)",
    )?;
    Ok(conn)
}

#[test]
fn example_of_plan_tables_schema(rt: HostRuntime) -> Result<(), Fail> {
    let alloc = rt.alloc();
    // example of plan_tables_schema
    let mut conn = Connection::open_in_memory(alloc)?;
    if conn.is_autocommit() {
        make_tables(&mut conn)?;
    }
    conn.execute_batch("INSERT INTO plan_period VALUES ('DAY', 0, 'A', 19723, 1)")?;
    assert_eq!(rt; select(&mut conn, Table::Period)?.len(), 1);
    assert_eq!(rt; select(&mut conn, Table::History)?.len(), 0);
    // end of the example
    Ok(())
}

#[test]
fn example_of_plan_tables_lookups(rt: HostRuntime) -> Result<(), Fail> {
    let mut conn = history(rt.alloc())?;
    // example of plan_tables_lookups
    // the last row of A that arrived by 09.00 on 2024-01-01
    let row = last_of(&mut conn, "A", 28_401_660)?.ok_or("no row")?;
    assert_eq!(rt; row.get::<u64>(0)?, 1);
    assert_eq!(rt; history_of_serial(&mut conn, 2)?.len(), 1);
    assert_eq!(rt; history_of_serial(&mut conn, 3)?.len(), 0);
    // end of the example
    Ok(())
}

#[test]
fn example_of_plan_tables_content(rt: HostRuntime) -> Result<(), Fail> {
    let alloc = rt.alloc();
    // example of plan_tables_content
    // the replies of two jobs, as the table of jobs has them
    let line = answer_line(alloc, &Ok(Reply::Undefined))?;
    assert_eq!(rt; line.as_slice(), b"ok undefined".as_slice());
    let line = answer_line(alloc, &Err(Refusal::NoPlan))?;
    assert_eq!(rt; line.as_slice(), b"refused 20".as_slice());
    // end of the example
    Ok(())
}

#[test]
fn example_of_plan_tables_definitions(rt: HostRuntime) -> Result<(), Fail> {
    let alloc = rt.alloc();
    let name = Name::from_text("DEFAULT").ok_or("no name")?;
    // example of plan_tables_definitions
    let mut calendar = Calendar::new(alloc);
    calendar.set_weekday(Weekday::Saturday, DayStatus::Free);
    calendar.set_weekday(Weekday::Sunday, DayStatus::Free);
    let mut calendars = ByName::new(alloc);
    calendars.insert(name, calendar)?;
    // a row for each weekday that the calendar lists
    let rows = calendar_rows(alloc, &calendars)?;
    assert_eq!(rt; rows.len(), 2);
    // end of the example
    Ok(())
}

#[test]
fn example_of_plan_tables_loading(rt: HostRuntime) -> Result<(), Fail> {
    let alloc = rt.alloc();
    let mut conn = history(alloc)?;
    // example of plan_tables_loading
    let lists = read_lists(alloc, &mut conn)?.ok_or("malformed rows")?;
    let content = content_of_lists(alloc, Definitions::new(alloc), lists)?;
    assert!(rt; content.ltp.is_empty() && content.bounds.is_none());
    assert_eq!(rt; content.history.len(), 2);
    // end of the example
    Ok(())
}

#[test]
fn example_of_plan_tables_queries(rt: HostRuntime) -> Result<(), Fail> {
    let alloc = rt.alloc();
    let mut conn = history(alloc)?;
    let a = App::from_text("A").ok_or("no name")?;
    let second = Serial::new(2).ok_or("no serial")?;
    // example of plan_tables_queries
    let rows = completed_of(alloc, &mut conn, &a)?;
    assert_eq!(rt; rows.len(), 2);
    // the second row is in history, and not among the deletions
    let row = completed_row(alloc, &mut conn, second)?;
    assert!(rt; row.is_some_and(|row| row.origin == Origin::Added));
    assert!(rt; deleted_row(alloc, &mut conn, second)?.is_none());
    // end of the example
    Ok(())
}

#[test]
fn example_of_plan_tables_windows(rt: HostRuntime) -> Result<(), Fail> {
    let alloc = rt.alloc();
    let mut conn = history(alloc)?;
    let app = App::from_text("A").ok_or("no name")?;
    let ia = Moment::from_text("2024-01-01/09.00").ok_or("no moment")?;
    let key = Key { ia, app };
    // example of plan_tables_windows
    let mut lists = Content::new(alloc);
    load_for_need(alloc, &mut conn, &mut lists, &Need::Key(key))?;
    // of history the last row of A at the arrival of the key or before it
    let rows = lists.history.of_app(&app);
    assert_eq!(rt; rows.first().map(|row| row.serial.get()), Some(1));
    assert_eq!(rt; lists.history.len(), 1);
    // end of the example
    Ok(())
}

/// A row of A at 08.00 on 2024-01-01.
fn row() -> Option<Row> {
    let ia = Moment::from_text("2024-01-01/08.00")?;
    let app = App::from_text("A")?;
    Some(Row {
        key: Key { ia, app },
        serial: Serial::new(1)?,
        deadline: Moment::from_text("2024-01-01/18.00")?,
        origin: Origin::Added,
    })
}

#[test]
fn example_of_plan_tables_writing(rt: HostRuntime) -> Result<(), Fail> {
    let alloc = rt.alloc();
    let mut conn = tables(alloc)?;
    let row = row().ok_or("no row")?;
    // example of plan_tables_writing
    // a row is added to history, and no definition changes
    let moves = DefinitionMoves {
        kind: None,
        names: Vec::new(alloc),
        rows: Vec::new(alloc),
        offsets: Vec::new(alloc),
    };
    let (mut content, mut change) = (Content::new(alloc), Change::none(alloc));
    change.history.put.push(row)?;
    let staged = content.stage(alloc, change)?;
    commit_change(&mut conn, alloc, &content, &moves, &staged, b"")?;
    assert_eq!(rt; select(&mut conn, Table::History)?.len(), 1);
    // end of the example
    Ok(())
}

#[test]
fn example_of_plan_tables_constraints(rt: HostRuntime) -> Result<(), Fail> {
    let alloc = rt.alloc();
    let mut conn = tables(alloc)?;
    let moves = DefinitionMoves {
        kind: None,
        names: Vec::new(alloc),
        rows: Vec::new(alloc),
        offsets: Vec::new(alloc),
    };
    // example of plan_tables_constraints
    // a change that fits the content of the tables, and leaves it sound, breaks none of their constraints
    fitting_changes_are_accepted();
    let mut content = Content::new(alloc);
    let staged = content.stage(alloc, Change::none(alloc))?;
    commit_change(&mut conn, alloc, &content, &moves, &staged, b"")?;
    assert!(rt; conn.is_autocommit());
    // end of the example
    Ok(())
}
