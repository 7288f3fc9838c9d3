//! The works of `bench_bus` that tables behind a lock do too, in plain Rust: each route reads them, and each change writes
//! them.
//!
//! Prints each work's checksum, as `bench_bus` does; with `--time`, a line with its name, a tab and the time of a turn
//! in tenths of a nanosecond, as `bench_bus --plain` reads them.

#[allow(dead_code)]
#[path = "../../bench_bytes/rust/names.rs"]
mod names;
mod owned;
#[path = "../../bench_bytes/rust/report.rs"]
mod report;
#[allow(dead_code)]
#[path = "../../bench_bytes/rust/rules.rs"]
mod rules;
mod tables;

use owned::Owned;
use report::Report;
use rules::{Argument, Facts, Rule};
use std::hint::black_box;
use std::sync::atomic::{AtomicBool, Ordering};
use std::sync::{Mutex, RwLock};
use std::thread;
use tables::Tables;

const SERVICE: &str = "com.example.Service";
const CONNECTIONS: u64 = 16;
const ROUTES: u64 = 4_000;
const BATCH: u64 = 64;
const TICKETS: u64 = 100;

fn other_rule() -> Rule {
    Rule::parse("type='signal',interface='org.freedesktop.login1.Manager',member='SessionRemoved'").expect("it is a rule")
}

fn own_rule() -> Rule {
    Rule::parse("type='signal',interface='org.freedesktop.login1.Manager',member='SessionNew'").expect("it is a rule")
}

fn signal() -> Facts {
    Facts {
        kind: Some("signal"),
        sender: 1,
        path: Some("/org/freedesktop/login1"),
        interface: Some("org.freedesktop.login1.Manager"),
        member: Some("SessionNew"),
        destination: None,
        arguments: vec![Argument::String("com.example.N7")],
    }
}

fn call() -> Facts {
    Facts {
        kind: Some("method_call"),
        sender: 1,
        path: Some("/com/example/Clock"),
        interface: Some("com.example.Clock"),
        member: Some("Now"),
        destination: Some(":1.16"),
        arguments: Vec::new(),
    }
}

fn opened() -> RwLock<Tables> {
    let mut tables = Tables::default();
    for _ in 0..CONNECTIONS {
        tables.come();
    }
    RwLock::new(tables)
}

fn add_rules(bus: &RwLock<Tables>, rule: &Rule, each: u64) {
    for number in 1..=CONNECTIONS {
        for _ in 0..each {
            bus.write().unwrap().add(number, rule.clone());
        }
    }
}

fn add_argument_rules(bus: &RwLock<Tables>, count: u64) {
    for number in 0..count {
        let text = format!("type='signal',interface='org.freedesktop.login1.Manager',member='SessionNew',arg0='com.example.N{number}'");
        bus.write().unwrap().add(1 + number % CONNECTIONS, Rule::parse(&text).expect("it is a rule"));
    }
}

fn route(report: &Report, name: &str, bus: &RwLock<Tables>, facts: &Facts) {
    report.tell(name, |_| 1 + bus.read().unwrap().route(black_box(facts)).len() as u64);
}

/// AddMatch and RemoveMatch: how many of the two are done.
fn change_twice(bus: &RwLock<Tables>, rule: &Rule) -> u64 {
    bus.write().unwrap().add(1, black_box(rule).clone());
    1 + u64::from(bus.write().unwrap().remove(1, black_box(rule)))
}

fn measure_signals(report: &Report) {
    let bus = opened();
    route(report, "signals: route a call to a connection", &bus, &call());
    route(report, "signals: route a signal, no rules", &bus, &signal());
    let rule = other_rule();
    add_rules(&bus, &rule, 4);
    route(report, "signals: route a signal, 64 rules of another member", &bus, &signal());
    report.tell("signals: AddMatch and RemoveMatch, 64 rules", |_| change_twice(&bus, &rule));
    add_rules(&bus, &rule, 252);
    route(report, "signals: route a signal, 4,096 rules of another member", &bus, &signal());
    let (bus, rule) = (opened(), own_rule());
    add_rules(&bus, &rule, 4);
    route(report, "signals: route a signal, 64 rules that it fits", &bus, &signal());
    add_rules(&bus, &rule, 252);
    route(report, "signals: route a signal, 4,096 rules that it fits", &bus, &signal());
    let bus = opened();
    add_argument_rules(&bus, 4_096);
    route(report, "signals: route a signal, 4,096 rules with first arguments of their own", &bus, &signal());
}

/// 64 AddMatch and 64 RemoveMatch, one by one: how many are done.
fn change_in_turn(bus: &RwLock<Tables>, rule: &Rule) -> u64 {
    for _ in 0..BATCH {
        bus.write().unwrap().add(1, black_box(rule).clone());
    }
    BATCH + (0..BATCH).filter(|_| bus.write().unwrap().remove(1, black_box(rule))).count() as u64
}

/// The same, with the lock taken once for each 64.
fn change_at_once(bus: &RwLock<Tables>, rule: &Rule) -> u64 {
    let mut tables = bus.write().unwrap();
    for _ in 0..BATCH {
        tables.add(1, black_box(rule).clone());
    }
    drop(tables);
    let mut tables = bus.write().unwrap();
    BATCH + (0..BATCH).filter(|_| tables.remove(1, black_box(rule))).count() as u64
}

/// A connection comes, becomes a monitor of all messages, and leaves: how many of the last two are done.
fn watch(bus: &RwLock<Tables>) -> u64 {
    let number = bus.write().unwrap().come();
    let watches = bus.write().unwrap().become_monitor(number, Vec::new());
    let left = bus.write().unwrap().leave(number);
    u64::from(watches) + u64::from(left)
}

/// 100 calls wait for a service, which takes its name and gives it up: 1,000 for each that waits, and one for each that
/// it serves then.
fn start(names: &Mutex<Owned>, name: &str) -> u64 {
    let waiting = (0..TICKETS).filter(|_| names.lock().unwrap().start(1, black_box(name)).is_some()).count() as u64;
    let mut owned = names.lock().unwrap();
    owned.request(2, black_box(name));
    let served = owned.started(name).len() as u64;
    drop(owned);
    names.lock().unwrap().release(2, black_box(name));
    1_000 * waiting + served
}

fn measure_changes(report: &Report) {
    let (bus, rule) = (opened(), other_rule());
    report.tell("batches: 64 AddMatch and 64 RemoveMatch, one by one", |_| change_in_turn(&bus, &rule));
    report.tell("batches: 64 AddMatch and 64 RemoveMatch, a batch each", |_| change_at_once(&bus, &rule));
    report.tell("monitors: Hello, BecomeMonitor and Leave", |_| watch(&bus));
    let names = Mutex::new(Owned::default());
    let name = "starts: 100 StartServiceByName, RequestName and ReleaseName";
    report.tell(name, |_| start(&names, SERVICE));
}

fn tell_of_names(report: &Report, name: &str, names: &Mutex<Owned>) {
    report.tell(name, |_| {
        let taken = names.lock().unwrap().request(1, black_box("com.example.Clock"));
        let given_up = names.lock().unwrap().release(1, black_box("com.example.Clock"));
        u64::from(taken) + u64::from(given_up)
    });
}

fn take_names(names: &Mutex<Owned>, count: u64) {
    for number in 0..count {
        names.lock().unwrap().request(1 + number % CONNECTIONS, &format!("com.example.N{number}"));
    }
}

fn measure_names(report: &Report) {
    let names = Mutex::new(Owned::default());
    take_names(&names, 1);
    tell_of_names(report, "names: RequestName and ReleaseName, 1 name held", &names);
    take_names(&names, 1_000);
    tell_of_names(report, "names: RequestName and ReleaseName, 1,000 names held", &names);
}

fn routes(bus: &RwLock<Tables>) -> u64 {
    let facts = call();
    (0..ROUTES).map(|_| bus.read().unwrap().route(black_box(&facts)).len() as u64).sum()
}

/// Makes changes until the routes are done.
fn changes_until(bus: &RwLock<Tables>, done: &AtomicBool) -> u64 {
    let rule = other_rule();
    while !done.load(Ordering::Relaxed) {
        if change_twice(bus, &rule) != 2 {
            return 0;
        }
    }
    1
}

fn measure_reads(report: &Report) {
    let bus = opened();
    for (name, readers) in [
        ("reads: a route by 1 seat, while one changes", 1),
        ("reads: a route by 2 seats, while one changes", 2),
        ("reads: a route by 4 seats, while one changes", 4),
    ] {
        let done = AtomicBool::new(false);
        report.tell_run(name, ROUTES, || {
            done.store(false, Ordering::Relaxed);
            thread::scope(|scope| {
                let changer = scope.spawn(|| changes_until(&bus, &done));
                let found: Vec<_> = (0..readers).map(|_| scope.spawn(|| routes(&bus))).collect();
                let found: u64 = found.into_iter().map(|thread| thread.join().unwrap()).sum();
                done.store(true, Ordering::Relaxed);
                changer.join().unwrap() * 1_000_003 + found
            })
        });
    }
}

fn main() {
    let report = Report::from_arguments();
    measure_signals(&report);
    measure_changes(&report);
    measure_names(&report);
    measure_reads(&report);
}
