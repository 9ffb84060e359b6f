//! Tests of the wrapper over the program of the first example, which the variable `R2U2_PROGRAM` names.

#![cfg(not(feature = "arena"))]

use r2u2::{Batch, Error, Monitor, Report, Style, Word};

fn program() -> Vec<u8> {
    let path = std::env::var("R2U2_PROGRAM").unwrap_or_else(|_| "../../examples/embed/grant.bin".to_string());
    std::fs::read(path).expect("the program of the first example")
}

#[test]
fn verdicts_come_in_order_of_time() {
    let mut monitor = Monitor::open(&program()).expect("a program");
    let mut words = Vec::new();
    for row in [[1, 0], [0, 1], [1, 0], [0, 0], [0, 0], [0, 0]] {
        words.extend(monitor.row(&row).expect("a row"));
    }
    assert_eq!(words.iter().map(|report| report.time).collect::<Vec<_>>(), [0, 1, 2, 3, 4, 5]);
    assert_eq!(words[2], Report { output: 0, time: 2, word: Word::False });
}

#[test]
fn runs_are_reported_once() {
    let mut monitor = Monitor::open(&program()).expect("a program");
    assert_eq!(monitor.row(&[1, 0]).expect("a row").count(), 0);
    let reports: Vec<_> = monitor.row(&[0, 1]).expect("a row").by(Style::Runs).collect();
    assert_eq!(reports, [Report { output: 0, time: 1, word: Word::True }]);
}

#[test]
fn reports_that_are_left_keep_the_next_row_out() {
    let mut monitor = Monitor::open(&program()).expect("a program");
    let _ = monitor.row(&[0, 1]).expect("a row");
    assert_eq!(monitor.row(&[0, 1]).err(), Some(Error::ReportsLeft));
    assert_eq!(monitor.reports(Style::Each).count(), 1);
    assert!(monitor.row(&[0, 1]).is_ok());
}

#[test]
fn faults_have_their_place() {
    let error = Monitor::open(&program()[1..]).expect_err("a fault");
    assert_eq!(error.to_string(), "magic");
    let mut monitor = Monitor::open(&program()).expect("a program");
    assert_eq!(monitor.row(&[0]).err(), Some(Error::NotARow { column: 1 }));
    assert_eq!(format!("{monitor:?}"), "Monitor { width: 2, outputs: 1, rows: 0 }");
}

#[test]
fn many_rows_are_single_rows() {
    let mut monitor = Monitor::open(&program()).expect("a program");
    let numbers = [1, 0, 0, 1, 1, 0, 0, 0, 0, 0, 0, 0];
    let mut reports = [Report::default(); 5];
    let (mut taken, mut words) = (0, Vec::new());
    while taken < 6 {
        let batch = monitor.row_many(&numbers[2 * taken..], Style::Each, &mut reports).expect("rows");
        assert!(batch.rows > 0);
        taken += batch.rows;
        words.extend(reports[..batch.reports].iter().map(|report| (report.time, report.word)));
    }
    let expected = [Word::True, Word::True, Word::False, Word::True, Word::True, Word::True];
    assert_eq!(words, (0..).zip(expected).collect::<Vec<_>>());
    assert_eq!(monitor.rows(), 6);
    assert_eq!(monitor.row_many(&numbers, Style::Each, &mut reports[..3]).err(), Some(Error::NoRoom));
    assert_eq!(monitor.row_many(&[0, 2], Style::Each, &mut reports).err(), Some(Error::NotARow { column: 1 }));
    assert_eq!(monitor.row_many(&[0], Style::Each, &mut reports).err(), Some(Error::NotARow { column: 1 }));
    assert_eq!(monitor.row_many(&[], Style::Each, &mut reports), Ok(Batch::default()));
    assert_eq!(monitor.rows(), 6);
}

#[test]
fn many_reports_are_single_reports() {
    let mut monitor = Monitor::open(&program()).expect("a program");
    let mut reports = [Report::default(); 1];
    assert_eq!(monitor.row(&[1, 0]).map(Iterator::count), Ok(0));
    let _ = monitor.row(&[0, 1]).expect("a row");
    assert_eq!((monitor.next_many(Style::Each, &mut reports), reports[0].time), (1, 0));
    assert_eq!((monitor.next_many(Style::Each, &mut reports), reports[0].time), (1, 1));
    assert_eq!(monitor.next_many(Style::Each, &mut reports), 0);
    assert_eq!(monitor.next_many(Style::Each, &mut []), 0);
}

#[test]
fn queries_leave_the_monitor_as_it_is() {
    let monitor = Monitor::open_under(&program(), b"#grant,other,request").expect("a program");
    let shared = &monitor;
    assert_eq!((shared.delay(0), shared.delay(1), shared.delay(u32::MAX)), (Some(3), None, None));
    assert_eq!((shared.is_contract(0), shared.is_contract(1)), (Some(false), None));
    assert_eq!(shared.name(0).as_deref(), Some("granted"));
    assert!(shared.name(1).is_none() && shared.signal(2).is_none());
    let columns: Vec<_> = shared.signals().map(|signal| (signal.name.to_string(), signal.column)).collect();
    assert_eq!(columns, [("request".to_string(), 2), ("grant".to_string(), 0)]);
}
