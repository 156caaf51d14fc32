//! Each slip on a small order of turns, worked out by hand from document 01.

use crate::files::{file, played};

/// Processor 0's second passage finds 1 as its successor from the first one,
/// wakes it in vain and leaves itself in the tail; 1 joins behind it.
#[test]
fn slip_1_finds_an_old_successor() {
    let turns = "0,0,1,1,1,1,0,0,1,1,1,0,0,0,0,1,1,1,1,1,0";
    let file = file("mcs", &["2,0", "2,0"], turns);
    assert_eq!(
        played("1", &file),
        "turns=21\nstop=0\nremote=7\np0=2,2,1,0,1\np1=1,5,3,1,0\n\
         events=j0,g0,j1,r0,g1,r1,j0,g0,r0,j1\n"
    );
    assert_eq!(
        played("", &file),
        "turns=21\nstop=0\nremote=6\np0=2,1,1,0,1\np1=2,5,3,0,1\n\
         events=j0,g0,j1,r0,g1,r1,j0,g0,r0,j1,g1,r1\n"
    );
}

/// 1 links itself and is woken before it has set its flag.
#[test]
fn slip_2_loses_the_wake_up() {
    let file = file("mcs", &["1,0", "1,0"], "0,0,1,1,1,0,0,1,1");
    assert_eq!(
        played("2", &file),
        "turns=9\nstop=0\nremote=3\np0=1,1,1,0,0\np1=0,2,2,1,0\nevents=j0,g0,j1,r0\n"
    );
}

/// 1 joins between 0's look and its compare-and-swap.
#[test]
fn slip_3_forgets_the_late_successor() {
    let file = file("mcs", &["1,0", "1,0"], "0,0,1,1,0,0,1,1,1,0");
    assert_eq!(
        played("3", &file),
        "turns=10\nstop=0\nremote=2\np0=1,0,0,0,1\np1=0,2,2,1,0\nevents=j0,g0,j1,r0\n"
    );
}

/// 65535 is not less than 1's ticket 0, and after its release 0 is less than
/// 65535 for ever.
#[test]
fn slip_4_is_wrong_past_65535() {
    let file = file("ticket", &["1,0", "1,0"], "0,1,1,1,1,0,0");
    assert_eq!(
        played("4", &file),
        "turns=7\nstop=0\nremote=4\np0=0,0,0,2,0\np1=1,4,4,0,0\nevents=j0,j1,g1,r1\n"
    );
}

/// 0 goes on and overwrites the flag that 1 has not yet read.
#[test]
fn slip_5a_overwrites_a_flag_not_yet_read() {
    let file = file("dissem", &["2,0", "1,0"], "0,1,0,0,0,1");
    assert_eq!(
        played("5a", &file),
        "turns=6\nstop=0\nremote=3\np0=1,2,1,1,0\np1=0,1,1,1,0\nevents=a0,a1,l0,a0\n"
    );
}

/// 0 finds its flag of the first episode and leaves the second one alone.
#[test]
fn slip_5b_reads_a_flag_of_the_episode_before() {
    let file = file("dissem", &["2,0", "1,0"], "0,1,0,0,0,1");
    assert_eq!(
        played("5b", &file),
        "turns=6\nstop=0\nremote=3\np0=2,2,1,0,0\np1=1,1,1,0,0\nevents=a0,a1,l0,a0,l0,l1\n"
    );
}

/// 0 arrives at the second episode before 1 has reset the count, and is not
/// counted.
#[test]
fn slip_6_resets_an_arrival_away() {
    let file = file("central", &["2,0", "2,0"], "0,1,1,0,0,1,1,0,1");
    assert_eq!(
        played("6", &file),
        "turns=9\nstop=0\nremote=5\np0=1,0,0,1,0\np1=1,5,3,1,0\nevents=a0,a1,l0,a0,l1,a1\n"
    );
}
