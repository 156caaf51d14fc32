//! What each turn did, worked out by hand from document 01.

use crate::files::{file, traced};

const INPUT_A: &str = "1 0 clear 0; 2 0 join+grant 0; 3 1 clear 0; 4 1 join 1; 5 0 look 0; \
    6 0 swap 0; 7 0 spin 0; 8 1 flag 0; 9 1 link 1; 10 1 spin 0; 11 0 look 0; ";

#[test]
fn input_a() {
    let file = file("mcs", &["1,0", "1,0"], "0,0,1,1,0,0,0,1,1,1,0,0,1,1,1,0");
    let end = "12 0 release 1; 13 1 grant 0; 14 1 look 0; 15 1 swap+release 1; 16 0 idle 0";
    assert_eq!(traced("", &file), INPUT_A.to_string() + end);
    let small = file.replace("budget=16384", "budget=2");
    assert_eq!(traced("", &small), INPUT_A.to_string() + "stopped");
}

#[test]
fn the_slips_of_mcs() {
    let first = file("mcs", &["1,1"], "0,0,0,0,0");
    let expected = "1 0 nothing 0; 2 0 join+grant 0; 3 0 hold 0; 4 0 look 0; 5 0 swap+release 0";
    assert_eq!(traced("1", &first), expected);
    let two = ["1,0", "1,0"];
    let start = "1 0 clear 0; 2 0 join+grant 0; 3 1 clear 0; 4 1 join 1; ";
    let second = file("mcs", &two, "0,0,1,1,1,0,0,1,1");
    let end = "5 1 link 1; 6 0 look 0; 7 0 release 1; 8 1 flag 0; 9 1 spin 0";
    assert_eq!(traced("2", &second), start.to_string() + end);
    let third = file("mcs", &two, "0,0,1,1,0,0,0");
    let end = "5 0 look 0; 6 0 swap+release 0; 7 0 idle 0";
    assert_eq!(traced("3", &third), start.to_string() + end);
}

#[test]
fn ticket() {
    let file = file("ticket", &["1,1", "1,0"], "0,1,1,0,0,0,0,1,1,1,0");
    let start = "1 0 join 0; 2 1 join 1; ";
    assert_eq!(
        traced("", &file),
        start.to_string()
            + "3 1 spin 1; 4 0 grant 0; 5 0 hold 0; 6 0 look 0; 7 0 release 0; \
               8 1 grant 1; 9 1 look 1; 10 1 release 1; 11 0 idle 0"
    );
    assert_eq!(
        traced("4", &file),
        start.to_string()
            + "3 1 grant 1; 4 0 grant 0; 5 0 hold 0; 6 0 look 0; 7 0 release 0; \
               8 1 look 1; 9 1 release 1; 10 1 idle 0; 11 0 idle 0"
    );
}

#[test]
fn central() {
    let file = file("central", &["1,1", "1,0"], "0,0,1,1,1,0,0,0");
    let start = "1 0 arrive 0; 2 0 spin 0; 3 1 arrive 1; ";
    let end = "; 6 0 leave 0; 7 0 hold 0; 8 0 idle 0";
    assert_eq!(traced("", &file), format!("{start}4 1 reset 1; 5 1 open+leave 1{end}"));
    assert_eq!(traced("6", &file), format!("{start}4 1 open 1; 5 1 reset+leave 1{end}"));
}

#[test]
fn dissem() {
    let three = file("dissem", &["1,0", "1,0", "1,0"], "0,0,2,0,0,1,1,1,0,0");
    assert_eq!(
        traced("", &three),
        "1 0 arrive 1; 2 0 spin 0; 3 2 arrive 1; 4 0 look 0; 5 0 tell 1; \
         6 1 arrive 1; 7 1 look 0; 8 1 tell 1; 9 0 leave 0; 10 0 idle 0"
    );
    let alone = file("dissem", &["1,1"], "0,0,0");
    assert_eq!(traced("", &alone), "1 0 arrive+leave 0; 2 0 hold 0; 3 0 idle 0");
}

#[test]
fn tree() {
    let three = file("tree", &["1,0", "1,1", "1,0"], "0,1,1,0,0,1,2,2,0,0,0,0,1,1,2,2");
    assert_eq!(
        traced("", &three),
        "1 0 arrive+spin 0; 2 1 arrive+reset 0; 3 1 tell 1; 4 0 look 0; 5 0 spin 0; 6 1 spin 0; \
         7 2 arrive+reset 0; 8 2 tell 1; 9 0 look 0; 10 0 reset 0; 11 0 wake 1; \
         12 0 wake+leave 1; 13 1 leave 0; 14 1 hold 0; 15 2 leave 0; 16 2 idle 0"
    );
    let four = file("tree", &["1,0"; 4], "1,1,2,2,3,3,0,0,0,0,0,0,1,1,3,2");
    assert_eq!(
        traced("", &four),
        "1 1 arrive+reset 0; 2 1 tell 1; 3 2 arrive+reset 0; 4 2 tell 1; 5 3 arrive+reset 0; \
         6 3 tell 1; 7 0 arrive+look 0; 8 0 look 0; 9 0 look 0; 10 0 reset 0; 11 0 wake 1; \
         12 0 wake+leave 1; 13 1 look 0; 14 1 wake+leave 1; 15 3 leave 0; 16 2 leave 0"
    );
    let alone = file("tree", &["1,0"], "0,0");
    assert_eq!(traced("", &alone), "1 0 arrive+reset+leave 0; 2 0 idle 0");
}
