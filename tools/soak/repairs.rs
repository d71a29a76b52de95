use external_dependencies::{
    Link, Links, Live, Pair, PairChange, Pairs, PlacedRow, Rows, Touch, arrives_within, nearest,
    resolve_all, resolve_touched,
};
use occurrences::{Key, Origin, Place, Reason, Row, Serial, Status};
use std::alloc::Global;
use std::process::Abort;
use work_calendars::{App, Moment, Within};

// The minutes from the first to 2024-01-01/00.00.
const FIRST: u32 = 19723 * 1440;

const NAMES: [&str; 4] = ["A", "B", "C", "D"];

// Numbers that look random, the same ones in each run.
#[derive(Drop)]
struct Dice {
    state: u64,
}

impl Dice {
    fn below(&mut self, limit: u32) -> u32 {
        self.state = self
            .state
            .wrapping_mul(6_364_136_223_846_793_005)
            .wrapping_add(1_442_695_040_888_963_407);
        let high = (self.state >> 33) as u32;
        high.checked_rem(limit).unwrap_or(0)
    }

    fn one_in(&mut self, count: u32) -> bool {
        self.below(count) == 0
    }
}

// A plan before and after a change.
#[derive(Drop)]
struct Case {
    was: Vec<PlacedRow>,
    now: Vec<PlacedRow>,
    was_links: Links,
    links: Links,
    old: Pairs,
}

fn app(rt: &impl Abort, number: u32) -> App {
    let name = NAMES.get(number as usize).expect(rt, "a number of a name");
    App::from_text(name).expect(rt, "a name")
}

// One of eight places; the first three are open, and the last two aren't live.
fn place(number: u32) -> Place {
    match number {
        0 | 1 => Place::LongTerm,
        2 => Place::Current(Status::W),
        3 => Place::Current(Status::S),
        4 => Place::Current(Status::C),
        5 => Place::History,
        6 => Place::Current(Status::D),
        _ => Place::Deleted(Reason::Operator),
    }
}

// A row of four applications that arrives at one of 21 moments of a week.
fn row(rt: &impl Abort, dice: &mut Dice, number: u32) -> PlacedRow {
    let minutes = dice.below(21).wrapping_mul(480).wrapping_add(FIRST);
    let ia = Moment::from_number(minutes).expect(rt, "a moment");
    let app = app(rt, dice.below(4));
    PlacedRow {
        row: Row {
            key: Key { ia, app },
            serial: Serial::new(number).expect(rt, "a serial"),
            deadline: ia,
            origin: Origin::Added,
        },
        place: place(dice.below(8)),
    }
}

fn push<T: Drop>(rt: &impl Abort, items: &mut Vec<T>, item: T) {
    items.push(item).expect(rt, "memory");
}

// A limit of some times eight hours, or none.
fn limit(dice: &mut Dice) -> Option<Within> {
    Within::from_hours(dice.below(10).wrapping_mul(8))
}

// Each of sixteen links as it was, or one in so many changed, in its limit too.
fn turned_links(rt: &impl Abort, alloc: Global, dice: &mut Dice, was: &Links, count: u32) -> Links {
    let mut links = Vec::new(alloc);
    for number in 0..16u32 {
        let app_of = app(rt, number / 4);
        let predecessor = app(rt, number % 4);
        let stood = was.list(&app_of).iter().find(|link| link.predecessor == predecessor);
        if stood.is_some() == dice.one_in(count) {
            continue;
        }
        let within = match stood {
            Some(link) if !dice.one_in(count) => link.within,
            _ => limit(dice),
        };
        push(
            rt,
            &mut links,
            Link {
                app: app_of,
                predecessor,
                within,
            },
        );
    }
    Links::from_vec(links)
}

// The rows after a change: most stay, some have another place, and some are new.
fn turned_rows(
    rt: &impl Abort,
    alloc: Global,
    dice: &mut Dice,
    was: &[PlacedRow],
) -> Vec<PlacedRow> {
    let mut now = Vec::new(alloc);
    for placed in was {
        let mut placed = *placed;
        if dice.one_in(5) {
            placed.place = place(dice.below(8));
        }
        push(rt, &mut now, placed);
    }
    for number in 0..dice.below(3) {
        push(rt, &mut now, row(rt, dice, number.wrapping_add(100)));
    }
    now
}

fn rows_of(rt: &impl Abort, alloc: Global, rows: &[PlacedRow]) -> Rows {
    let mut all = Vec::new(alloc);
    for placed in rows {
        push(rt, &mut all, *placed);
    }
    Rows::from_vec(all)
}

// The pairs from scratch, and what each live row that isn't open had.
fn settled(
    rt: &impl Abort,
    alloc: Global,
    rows: &[PlacedRow],
    links: &Links,
    had: &[Pair],
) -> Pairs {
    let scratch = resolve_all(alloc, &rows_of(rt, alloc, rows), links).expect(rt, "memory");
    let mut pairs = scratch.into_vec();
    for pair in had {
        if let Some(placed) = find(rows, pair.successor) {
            if placed.place.is_live() && !placed.place.is_open() {
                push(rt, &mut pairs, *pair);
            }
        }
    }
    Pairs::from_vec(pairs)
}

fn find(rows: &[PlacedRow], serial: Serial) -> Option<&PlacedRow> {
    rows.iter().find(|placed| placed.row.serial == serial)
}

// Some pairs of these rows, whatever they are.
fn some_pairs(rt: &impl Abort, alloc: Global, dice: &mut Dice, rows: &[PlacedRow]) -> Vec<Pair> {
    let mut pairs = Vec::new(alloc);
    for successor in rows {
        for predecessor in rows {
            if dice.one_in(4) {
                push(
                    rt,
                    &mut pairs,
                    Pair {
                        successor: successor.row.serial,
                        predecessor: predecessor.row.serial,
                    },
                );
            }
        }
    }
    pairs
}

fn new_case(rt: &impl Abort, alloc: Global, dice: &mut Dice) -> Case {
    let mut was = Vec::new(alloc);
    for number in 0..dice.below(12) {
        push(rt, &mut was, row(rt, dice, number.wrapping_add(1)));
    }
    let was_links = turned_links(rt, alloc, dice, &Links::new(alloc), 3);
    let had = some_pairs(rt, alloc, dice, &was);
    let old = settled(rt, alloc, &was, &was_links, &had);
    let now = turned_rows(rt, alloc, dice, &was);
    let links = turned_links(rt, alloc, dice, &was_links, 40);
    Case {
        was,
        now,
        was_links,
        links,
        old,
    }
}

impl Case {
    fn lived(&self, serial: Serial) -> bool {
        find(&self.was, serial).is_some_and(|placed| placed.place.is_live())
    }

    fn waited(&self, serial: Serial) -> bool {
        find(&self.was, serial).is_some_and(|placed| placed.place.is_open())
    }

    // Names in which way a row was touched.
    fn name(&self, rt: &impl Abort, placed: &PlacedRow, touch: &mut Touch) {
        let serial = placed.row.serial;
        let lived = self.lived(serial);
        let waited = self.waited(serial);
        let waits = placed.place.is_open();
        if !placed.place.is_live() {
            if lived {
                push(rt, &mut touch.withdrawn, placed.row);
            }
        } else if !lived {
            push(rt, &mut touch.made, placed.row);
        } else if waits && !waited {
            push(rt, &mut touch.opened, serial);
        } else if waited && !waits {
            push(rt, &mut touch.closed, serial);
        }
    }

    fn touch(&self, rt: &impl Abort, alloc: Global) -> Touch {
        let mut touch = Touch::new(alloc);
        for placed in self.now.as_slice() {
            self.name(rt, placed, &mut touch);
        }
        for number in 0..4u32 {
            let app = app(rt, number);
            let has = self.links.list(&app);
            let stays = has.iter().all(|link| self.was_links.contains(link));
            if !stays || self.was_links.list(&app).len() != has.len() {
                push(rt, &mut touch.lists, app);
            }
        }
        touch
    }

    // What leads from the pairs before to those that are found from scratch.
    fn wanted(&self, rt: &impl Abort, alloc: Global) -> PairChange {
        let new = settled(rt, alloc, &self.now, &self.links, self.old.as_slice());
        PairChange::between(alloc, &self.old, &new).expect(rt, "memory")
    }
}

// Whether the row that came or went may precede the other by the link.
fn may_precede(moved: &Row, row: &Row, link: &Link) -> bool {
    let in_time = if moved.key.app == row.key.app {
        moved.key.ia < row.key.ia
    } else {
        moved.key.ia <= row.key.ia
    };
    moved.key.app == link.predecessor
        && in_time
        && arrives_within(link.within, row.key.ia, moved.key.ia)
}

// Whether the change may reach the row.
fn reached(case: &Case, touch: &Touch, placed: &PlacedRow) -> bool {
    let row = &placed.row;
    let named = touch.made.iter().any(|made| made.serial == row.serial)
        || touch.opened.contains(&row.serial)
        || touch.lists.contains(&row.key.app);
    let moved = case.links.list(&row.key.app).iter().any(|link| {
        touch.made.iter().any(|made| may_precede(made, row, link))
            || touch.withdrawn.iter().any(|gone| may_precede(gone, row, link))
    });
    placed.place.is_open() && (named || moved)
}

// The rows that the change may reach, with what is nearest to them.
fn few_rows(rt: &impl Abort, alloc: Global, case: &Case, touch: &Touch) -> Rows {
    let live = Live::build(alloc, &rows_of(rt, alloc, &case.now)).expect(rt, "memory");
    let mut few = Vec::new(alloc);
    for placed in case.now.as_slice() {
        if reached(case, touch, placed) {
            push(rt, &mut few, *placed);
            for link in case.links.list(&placed.row.key.app) {
                let near = nearest(&live, &placed.row.key, &link.predecessor, None);
                if let Some(found) = near.and_then(|serial| find(&case.now, serial)) {
                    push(rt, &mut few, *found);
                }
            }
        }
    }
    Rows::from_vec(few)
}

// The pairs of the rows that the change may reach, and of those that were withdrawn.
fn few_pairs(rt: &impl Abort, alloc: Global, case: &Case, touch: &Touch) -> Pairs {
    let mut few = Vec::new(alloc);
    for pair in case.old.as_slice() {
        let is_reached = find(&case.now, pair.successor).is_some_and(|placed| reached(
            case, touch, placed,
        ));
        if is_reached || touch.withdrawn.iter().any(|row| row.serial == pair.successor) {
            push(rt, &mut few, *pair);
        }
    }
    Pairs::from_vec(few)
}

// The lists of the applications of these rows.
fn few_links(rt: &impl Abort, alloc: Global, case: &Case, rows: &Rows) -> Links {
    let mut few = Vec::new(alloc);
    for placed in rows.as_slice() {
        for link in case.links.list(&placed.row.key.app) {
            push(rt, &mut few, *link);
        }
    }
    Links::from_vec(few)
}

// What one case removes and adds, found where the change reaches: over all rows, lists and pairs, and over the few that
// are needed, it is what is found from scratch.
fn tried(rt: &impl Abort, alloc: Global, number: u64) -> (usize, usize) {
    let mut dice = Dice { state: number };
    let case = new_case(rt, alloc, &mut dice);
    let touch = case.touch(rt, alloc);
    let wanted = case.wanted(rt, alloc);
    let all = rows_of(rt, alloc, &case.now);
    let change = resolve_touched(alloc, &all, &case.links, &case.old, &touch).expect(rt, "memory");
    assert_eq!(rt;
        change.removed.as_slice(),
        wanted.removed.as_slice(),
        "all rows, {number}"
    );
    assert_eq!(rt;
        change.added.as_slice(),
        wanted.added.as_slice(),
        "all rows, {number}"
    );
    let rows = few_rows(rt, alloc, &case, &touch);
    let pairs = few_pairs(rt, alloc, &case, &touch);
    let links = few_links(rt, alloc, &case, &rows);
    let less = resolve_touched(alloc, &rows, &links, &pairs, &touch).expect(rt, "memory");
    assert_eq!(rt;
        less.removed.as_slice(),
        wanted.removed.as_slice(),
        "few rows, {number}"
    );
    assert_eq!(rt;
        less.added.as_slice(),
        wanted.added.as_slice(),
        "few rows, {number}"
    );
    (
        wanted.removed.as_slice().len(),
        wanted.added.as_slice().len(),
    )
}

// 2,000 small plans and changes of all kinds. Many of them remove pairs, and many add some.
#[test]
fn repairs_are_what_is_found_from_scratch(rt: HostRuntime) {
    let mut removing = 0u32;
    let mut adding = 0u32;
    for number in 0..2000u64 {
        let (removed, added) = tried(&rt, rt.alloc(), number);
        removing = removing.wrapping_add(u32::from(removed > 0));
        adding = adding.wrapping_add(u32::from(added > 0));
    }
    assert!(rt; removing > 300);
    assert!(rt; adding > 300);
}
