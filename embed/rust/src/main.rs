//! Watches the rows of the first example: `r2u2 PROGRAM` prints the lines of the monitor.

use r2u2::{Error, Monitor, Style};

const ROWS: [[i64; 2]; 6] = [[1, 0], [0, 1], [1, 0], [0, 0], [0, 0], [0, 0]];

fn main() -> Result<(), Box<dyn std::error::Error>> {
    let path = std::env::args().nth(1).ok_or("usage: r2u2 PROGRAM")?;
    let program = std::fs::read(path)?;
    #[cfg(feature = "arena")]
    r2u2::arena::set_memory(vec![0; 2 * r2u2::arena::open_under_bytes(&program, b"# request,grant")].leak())?;
    let mut monitor = Monitor::open_under(&program, b"# request,grant")?;
    let name = monitor.name(0).ok_or("no output")?;
    assert_eq!((monitor.width(), monitor.outputs()), (2, 1));
    let signal = monitor.signals().nth(1).ok_or("no second signal")?;
    assert_eq!((&*signal.name, signal.column, signal.truth), ("grant", 1, true));
    assert!(Monitor::bytes(&program)? > 0);
    assert!(monitor.rows() == 0 && monitor.delay(0) == Some(3) && monitor.delay(1).is_none() && monitor.steps() > 0 && r2u2::version() > 0);
    assert!(monitor.most_reports() == 4 && monitor.is_contract(0) == Some(false));
    assert_eq!(monitor.row(&[0, 2]).err(), Some(Error::NotARow { column: 1 }));
    let _ = monitor.row(&ROWS[1])?;
    monitor.reset();
    assert!(monitor.rows() == 0 && monitor.reports(Style::Each).next().is_none());
    for row in ROWS {
        for report in monitor.row(&row)? {
            println!("{name}:{},{}", report.time, report.word);
        }
    }
    assert_eq!(Monitor::open_checked(&program, &[0; 32]).err(), Some(Error::Damaged));
    let cut = Monitor::open(&program[1..]).err();
    assert!(matches!(cut, Some(Error::Refused { kind: 2, .. })), "{cut:?}");
    Ok(())
}
