//! Tests of the feature `arena`: monitors in an array, also in several threads at once.
#![cfg(feature = "arena")]

use r2u2::{Error, Monitor, arena};
use std::thread;

fn program() -> Vec<u8> {
    let path = std::env::var("R2U2_PROGRAM").unwrap_or_else(|_| "../../examples/embed/grant.bin".to_string());
    std::fs::read(path).expect("the program of the first example")
}

// One test, since the arena belongs to the whole program.
#[test]
fn monitors_are_in_the_array() {
    let program = program();
    assert_eq!(Monitor::open(&program).err(), Some(Error::NoMemory));
    let header = b"#request,grant,other";
    let enough = arena::open_under_bytes(&program, header);
    assert!(enough > arena::open_bytes(&program) && arena::open_bytes(b"no program") == 0);
    arena::set_memory(vec![0; enough].leak()).expect("no monitor");
    let monitor = Monitor::open_under(&program, header).expect("memory");
    assert!(arena::used() > 0 && arena::most() <= enough);
    assert_eq!(arena::set_memory(Box::leak(Box::new([0; 8]))), Err(arena::InUse));
    drop(monitor);
    assert_eq!(arena::used(), 0);
    arena::set_memory(vec![0; 8 * enough].leak()).expect("no monitor");
    thread::scope(|scope| {
        for _ in 0..4 {
            scope.spawn(|| {
                for _ in 0..200 {
                    let mut monitor = Monitor::open(&program).expect("memory");
                    assert_eq!(monitor.row(&[0, 1]).expect("a row").count(), 1);
                }
            });
        }
    });
    assert_eq!(arena::used(), 0);
}
