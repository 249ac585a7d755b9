//! Random sessions on both sides, and on ours in house mode; the fixed list.

use std::fs;
use std::path::Path;

use compare::list;
use compare::sessions;

#[test]
fn our_library_and_the_rust_agree() {
    let reached = sessions::run(0, sessions::GATE).unwrap_or_else(|x| panic!("{x}"));
    println!("{reached}");
    assert_eq!(reached.missing(), Vec::<&str>::new(), "never reached");
    assert_eq!(reached.senseless(), 0);
    assert!(reached.otherwise() > 0, "house mode is never heard");
    assert!(reached.apart() > 0, "the cursors never part");
}

#[test]
fn the_fixed_list_is_what_the_writer_writes() {
    let (text, reached) = list::written().unwrap_or_else(|x| panic!("{x}"));
    println!("{reached}");
    assert_eq!(
        reached.missing_in_list(),
        Vec::<&str>::new(),
        "never reached"
    );
    assert_eq!(reached.senseless(), 0);
    assert!(text.len() <= list::MOST_BYTES);
    is_committed(&list::path(), &text);
}

#[test]
fn the_list_with_mistakes_is_what_the_writer_writes() {
    let text = list::mistaken().unwrap_or_else(|x| panic!("{x}"));
    is_committed(&list::mistaken_path(), &text);
}

fn is_committed(path: &Path, text: &str) {
    let committed = fs::read_to_string(path).expect("the list is there");
    assert!(
        committed == text,
        "the list is old: run `cargo run --release --bin answers`"
    );
}
