//! The header promises that a thread with 128 KiB of stack can make every call.

use std::thread;

use ruzkemp::{Attributes, Name, Record, Result, Role, Unit, SECTOR};

const STACK: usize = 128 * 1024;
const FILES: u16 = 900;

/// Every message on a unit of 3,330 slices and 900 files.
fn every_message() -> Result<()> {
    let mut unit = Unit::formatted(&Record::new(0, 4, 3, 10_000, 10))?;
    unit.init()?;
    let name = |text: &str| Name::new(text).expect("a legal name");
    for file in 0..FILES {
        unit.create(name(&format!("F{file}")), 1, Attributes::EXTENDABLE)?;
    }
    let (file, other) = (name("F7"), name("OTHER"));
    unit.create_area(file)?;
    unit.reserve(file, 1, Role::ExclusiveUser)?;
    unit.position(file, 1, 1)?;
    for _ in 0..100 {
        unit.write_block(file, 1, &[1; SECTOR])?;
    }
    unit.read_block_at(file, 1, 100, &mut [0; SECTOR])?;
    unit.sense(file, 1)?;
    unit.release(file, 1)?;
    unit.remove_area(file)?;
    unit.rename(file, other)?;
    unit.resize(other, 500)?;
    let entry = unit.look_up(other)?.with_size(3);
    unit.set(file, &entry)?;
    unit.remove(other)?;
    unit.describe()?;
    assert_eq!(unit.list()?.len(), usize::from(FILES) + 2);
    assert!(unit.is_sound());
    Ok(())
}

#[test]
fn a_small_stack_is_enough() {
    let thread = thread::Builder::new()
        .stack_size(STACK)
        .spawn(every_message);
    let ended = thread.expect("a thread starts").join();
    assert_eq!(ended.expect("the thread ends"), Ok(()));
}
