//! Changes a policy, as examples/change.c does: loads the small house, lets user 6 read object 511, asks from the index, and saves.

use quandrilof::{operation, Decision, Refusal, Request, Table};

fn main() -> Result<(), Refusal> {
    let image = std::fs::read("examples/small_house.image").expect("run it from the project's folder");
    let mut house = Table::load(&image)?;
    // Process 2 is user 6's.
    let reads = Request { process: 2, operation: operation::READ, first: 511, ..Request::default() };
    let ask = |house: &Table| match house.decide_indexed(&reads) {
        Ok(Decision::Grant(_)) => "granted",
        Ok(Decision::Deny) => "denied",
        Err(_) => "refused",
    };
    println!("process 2 reads 511: {}", ask(&house));
    let (_, why) = house.explained(&reads)?;
    assert_eq!((why[0].cause, why[0].number), (1, 1)); // the right is not held: class 1 lacks it
    house.assign(6, 4)?;
    println!("assign 6 to 4: 0");
    println!("process 2 reads 511: {}", ask(&house));
    println!("deassign 9 from 7: {}", house.deassign(9, 7).map_or_else(Refusal::number, |()| 0));
    println!("saved: {} bytes", house.save().len());
    Ok(())
}
