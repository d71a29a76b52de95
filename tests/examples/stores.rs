//! The examples of the store in memory, of the decisions over it, and of a run. `lib.rt` and the `README.md` of each
//! library have the lines between the two marks. `tools/gate/examples` compiles and runs this file, without
//! a proof: a proof of these takes many minutes.
use crate::windows::planned;
use daily_planning::extend;
use long_term_plan::create;
use occurrences::{Key, Reply, Serial};
use plan_store::{Content, ListStore, Need, PlanStore, Verdict};
use plan_store_pairs::{Plan, add};
use plan_store_soundness::is_sound;
use planner_answers::{each_stream_has_one_run, exactly_one_answer, kept_content_stays_kept};
use planner_cli::{exit_status, run_lists};
use std::test::Fail;
use work_calendars::{App, Day, Moment};

// B follows A, and both are named at 08.00 of each day.
const DEFINED: &[u8] = b"define calendars --job 1\nDEFAULT,SAT,FREE\nDEFAULT,SUN,FREE\n/*\n\
    define periods --job 2\nDAY,A,2024-01-01,1\n/*\n\
    define applications --job 3\nA,A,\nB,A,\n/*\n\
    define run-cycles --job 4\nA,RC,N,DAY,4,1,2024-01-01,,08.00,0,18.00\nB,RC,N,DAY,4,1,2024-01-01,,08.00,0,18.00\n/*\n\
    define predecessors --job 5\nB,A\n/*\n";

// The same, with a long-term plan of two days: 1 and 3 are of A, and 2 and 4 of B.
const PLANNED: &[u8] = b"define calendars --job 1\nDEFAULT,SAT,FREE\nDEFAULT,SUN,FREE\n/*\n\
    define periods --job 2\nDAY,A,2024-01-01,1\n/*\n\
    define applications --job 3\nA,A,\nB,A,\n/*\n\
    define run-cycles --job 4\nA,RC,N,DAY,4,1,2024-01-01,,08.00,0,18.00\nB,RC,N,DAY,4,1,2024-01-01,,08.00,0,18.00\n/*\n\
    define predecessors --job 5\nB,A\n/*\n\
    ltp-create --from 2024-01-01 --to 2024-01-02 --job 6\n";

#[test]
fn example_of_plan_store(rt: HostRuntime) -> Result<(), Fail> {
    let alloc = rt.alloc();
    // example of plan_store
    let mut store = ListStore::new(alloc);
    assert!(rt; store.job(alloc, 7)?.is_none());
    // what a decision on the long-term plan sees, before there is one
    let view = store.read_window(alloc, Need::LongTerm(None))?;
    assert!(rt; view.bounds().is_none() && view.ltp().is_empty());
    assert_eq!(rt; view.issued(), 0);
    // end of the example
    Ok(())
}

#[test]
fn example_of_planner_answers() {
    // example of planner_answers
    // a law does nothing: what it says of all statements, contents and streams is its contract
    exactly_one_answer();
    kept_content_stays_kept();
    each_stream_has_one_run();
    // end of the example
}

#[test]
fn example_of_plan_store_pairs(rt: HostRuntime) -> Result<(), Fail> {
    let alloc = rt.alloc();
    let mut store = planned(&rt, alloc, PLANNED);
    let ia = Moment::from_text("2024-01-02/12.00").ok_or("no moment")?;
    let app = App::from_text("B").ok_or("no name")?;
    let key = Key { ia, app };
    let third = Serial::new(3).ok_or("no serial")?;
    // example of plan_store_pairs
    // B is added at 12.00 of the second day, and follows A of 08.00, which is the third row
    let view = store.read_window(alloc, Need::Key(key))?;
    let Verdict::Done(change, _reply) = add(alloc, &view, Plan::LongTerm, &key)? else {
        return Err(Fail::new("refused"));
    };
    let pair = change.pairs.added.as_slice().first();
    assert_eq!(rt; pair.map(|pair| pair.predecessor), Some(third));
    // end of the example
    Ok(())
}

#[test]
fn example_of_plan_store_soundness(rt: HostRuntime) -> Result<(), Fail> {
    let alloc = rt.alloc();
    // example of plan_store_soundness
    let mut content = Content::new(alloc);
    assert!(rt; is_sound(alloc, &content)?);
    // a serial is issued, and no row has it
    content.issued = 1;
    assert!(rt; !is_sound(alloc, &content)?);
    // end of the example
    Ok(())
}

#[test]
fn example_of_long_term_plan(rt: HostRuntime) -> Result<(), Fail> {
    let alloc = rt.alloc();
    let mut store = planned(&rt, alloc, DEFINED);
    let first = Day::from_text("2024-01-01").ok_or("no day")?;
    let last = Day::from_text("2024-01-02").ok_or("no day")?;
    // example of long_term_plan
    // two applications are named on each of two days
    let view = store.read_window(alloc, Need::LongTerm(None))?;
    let Verdict::Done(change, reply) = create(alloc, &view, first, last)? else {
        return Err(Fail::new("refused"));
    };
    let (made, withdrawn) = (4, 0);
    assert_eq!(rt; change.ltp.put.len(), made);
    assert_eq!(rt; reply, Reply::Made { made, withdrawn });
    // end of the example
    Ok(())
}

#[test]
fn example_of_daily_planning(rt: HostRuntime) -> Result<(), Fail> {
    let alloc = rt.alloc();
    let mut store = planned(&rt, alloc, PLANNED);
    let to = Moment::from_text("2024-01-02/00.00").ok_or("no moment")?;
    // example of daily_planning
    // the two rows of the first day move from the long-term plan to the current plan
    let view = store.read_window(alloc, Need::Daily(to))?;
    let Verdict::Done(change, reply) = extend(alloc, &view, to)? else {
        return Err(Fail::new("refused"));
    };
    assert!(rt; change.ltp.gone.len() == 2 && change.cp.put.len() == 2);
    assert!(rt; matches!(reply, Reply::Moved { moved: 2, .. }));
    // end of the example
    Ok(())
}

#[test]
fn example_of_planner_cli(rt: HostRuntime) {
    let alloc = rt.alloc();
    // example of planner_cli
    // neither line is a statement
    let mut reader = b"list\nhelp\n".as_slice();
    let mut writer = Vec::new(alloc);
    let outcome = run_lists(alloc, &mut reader, &mut writer);
    assert_eq!(rt; writer.as_slice(), b"refused 10\nrefused 10\n".as_slice());
    assert_eq!(rt; exit_status(&outcome), 4);
    // end of the example
}
