//! Random turns of pumps and drains on both sides.

use compare::turns;

#[test]
fn our_ring_and_the_rusts_agree() {
    let turns = turns::run(0, turns::GATE).unwrap_or_else(|x| panic!("{x}"));
    println!("{turns}");
    assert_eq!(turns.count(), turns::GATE);
    assert_eq!(turns.missing(), Vec::<&str>::new(), "never reached");
}
