//! Switches: which conditions are fixed, and what is asked of the branches that they leave dead.

mod common;

use common::*;
use finchchaise_model::check_table;

/// If 0 then (if own number then barrier else nothing) else nothing.
const SWITCHED_OFF: [u32; 10] = [
    0x10420700, 0x00000000, 0x06000000, 0x00000000, 0x10000000, 0xB8000000, 0x80000000, 0x98040403,
    0x80000000, 0x98000805,
];

/// If 9 divided by 0 equals 0 then nothing else (if own number then barrier else nothing).
const WORKED_OUT: [u32; 14] = [
    0x10420B00, 0x00000000, 0x0A000000, 0x00000009, 0x00000000, 0x48000200, 0x00000000, 0x58080600,
    0x10000000, 0xB8000000, 0x80000000, 0x98140C07, 0x80000000, 0x98101208,
];

/// If 0 then (variable 0, which is single, takes the own number) else nothing.
const DEAD_ASSIGNMENT: [u32; 8] = [
    0x10420500, 0x80000000, 0x04000000, 0x00000000, 0x10000000, 0x88000200, 0x80000000, 0x98000403,
];

/// If 0 then leave else nothing.
const DEAD_LEAVE: [u32; 7] = [
    0x10420400, 0x00000000, 0x03000000, 0x00000000, 0xD0000000, 0x80000000, 0x98000202,
];

/// While 1: (if own number then (if 0 then leave else nothing) else nothing), then barrier.
const SWITCHED_LEAVE: [u32; 14] = [
    0x10420B00, 0x00000000, 0x0A800000, 0x00000001, 0x10000000, 0x00000000, 0xD0000000, 0x80000000,
    0x98080604, 0x80000000, 0x98040A06, 0xB8000000, 0x901C1000, 0xA0001200,
];

/// What a check says of a table with some words changed.
fn judged(words: &[u32], changes: &[(usize, u32)]) -> String {
    let mut words = words.to_vec();
    for &(place, word) in changes {
        words[place] = word;
    }
    check_table(&bytes(&words))
}

#[test]
fn marked_switches_are_judged_as_written() {
    let (on, count) = (0x00000001, 0x18000000);
    assert_eq!(judged(&SWITCHED_OFF, &[]), "accepted\n");
    assert_eq!(judged(&SWITCHED_OFF, &[(3, on)]), "refused 15 4\n");
    assert_eq!(judged(&SWITCHED_OFF, &[(3, count)]), "refused 15 4\n");
    assert_eq!(judged(&WORKED_OUT, &[]), "accepted\n");
    assert_eq!(judged(&DEAD_ASSIGNMENT, &[]), "accepted\n");
    assert_eq!(judged(&DEAD_ASSIGNMENT, &[(3, on)]), "refused 13 2\n");
    let live_effect = [(3, on), (4, count)];
    assert_eq!(judged(&DEAD_ASSIGNMENT, &live_effect), "refused 17 0\n");
    assert_eq!(judged(&DEAD_LEAVE, &[]), "refused 26 1\n");
    assert_eq!(judged(&SWITCHED_LEAVE, &[]), "accepted\n");
    assert_eq!(judged(&SWITCHED_LEAVE, &[(5, count)]), "refused 16 10\n");
}

/// If own number then barrier else nothing: what 15 refuses, at node 3.
const LOCAL_BARRIER: [Node; 4] = [OWN, BARRIER, NOTHING, choose(0, 1, 2)];

const fn constant(value: u32) -> Node {
    [0, 0, value / 512, value % 512]
}

/// If a condition then the last of these nodes, else nothing. The condition's nodes are given by the
/// number of the first of them.
fn chosen_by(nodes: &[Node], condition: impl Fn(u32) -> Vec<Node>) -> Vec<Node> {
    let branch = nodes.len() as u32 - 1;
    let mut nodes = nodes.to_vec();
    nodes.extend(condition(branch + 1));
    let condition = nodes.len() as u32 - 1;
    nodes.extend([NOTHING, choose(condition, branch, condition + 1)]);
    nodes
}

/// The last of these nodes in the first or second branch of an if with this constant; the other
/// branch is nothing.
fn switched(nodes: &[Node], value: u32, second: bool) -> Vec<Node> {
    let mut nodes = chosen_by(nodes, |_| vec![constant(value)]);
    if second {
        let last = nodes.len() - 1;
        nodes[last].swap(2, 3);
    }
    nodes
}

fn judged_nodes(nodes: &[Node]) -> String {
    check_table(&table_of(nodes))
}

/// The table with variable 0 single.
fn judged_single(nodes: &[Node]) -> String {
    let mut table = table_of(nodes);
    table[4] = 0x80;
    check_table(&table)
}

/// The table with no effect flag on its procedure.
fn judged_unflagged(nodes: &[Node]) -> String {
    let mut table = table_of(nodes);
    table[9] = 0;
    check_table(&table)
}

#[test]
fn only_the_branch_that_will_be_taken_is_asked() {
    let assignment = [OWN, [17, 0, 0, 0]];
    let broadcast = [OWN, OWN, [24, 0, 0, 1]];
    let local_loop = [OWN, BARRIER, repeat(0, 1)];
    let asked: [(&[Node], u32); 4] = [
        (&assignment, 13),
        (&broadcast, 14),
        (&LOCAL_BARRIER, 15),
        (&local_loop, 16),
    ];
    for (nodes, number) in asked {
        let refused = format!("refused {number} {}\n", nodes.len() - 1);
        for value in [0, 1, 2, 262_143] {
            for second in [false, true] {
                let taken = second == (value == 0);
                let expected = if taken { &refused } else { "accepted\n" };
                let nodes = switched(nodes, value, second);
                assert_eq!(judged_single(&nodes), expected, "{number} {value} {second}");
            }
        }
    }
}

#[test]
fn every_operator_works_out_a_switch() {
    const LAST: u32 = 262_143;
    let operations = [
        (6, 0, 0, false),
        (6, 0, 1, true),
        (6, 1, 0, true),
        (7, 1, 0, true),
        (7, 5, 5, false),
        (7, 0, 1, true),
        (8, 0, LAST, false),
        (8, 2, 3, true),
        (8, 65_536, 65_536, false),
        (8, 65_535, 65_537, true),
        (9, 3, 4, false),
        (9, 4, 3, true),
        (9, LAST, 0, false),
        (9, 0, 0, false),
        (10, 0, 1, true),
        (10, 1, 1, false),
        (10, 1, 0, false),
        (11, 512, 512, true),
        (11, 1, 512, false),
        (12, 2, 1, true),
        (12, 0, 1, false),
        (12, 1, 0, false),
        (12, 0, 0, false),
    ];
    for (kind, left, right, taken) in operations {
        let nodes = chosen_by(&LOCAL_BARRIER, |next| {
            vec![constant(left), constant(right), [kind, next, next + 1, 0]]
        });
        let expected = if taken {
            "refused 15 3\n"
        } else {
            "accepted\n"
        };
        assert_eq!(judged_nodes(&nodes), expected, "{kind} of {left}, {right}");
    }
}

#[test]
fn parts_wrap_around_before_they_are_compared() {
    // 0 less 1 is the largest value: not less than 1, and 0 with 1 added.
    for (kind, taken) in [(10, false), (6, false), (8, true), (9, true), (12, true)] {
        let nodes = chosen_by(&LOCAL_BARRIER, |next| {
            let difference = [7, next, next + 1, 0];
            let whole = [kind, next + 2, next + 3, 0];
            vec![constant(0), constant(1), difference, constant(1), whole]
        });
        let expected = if taken {
            "refused 15 3\n"
        } else {
            "accepted\n"
        };
        assert_eq!(judged_nodes(&nodes), expected, "{kind}");
    }
}

#[test]
fn nothing_else_is_fixed() {
    // Alone, and beside a constant that may decide the value.
    const VARIABLE: Node = [1, 0, 0, 0];
    for single in [COUNT, VARIABLE] {
        let alone = chosen_by(&LOCAL_BARRIER, |_| vec![single]);
        assert_eq!(judged_single(&alone), "refused 15 3\n");
        for kind in 6..=12 {
            for swapped in [0, 1] {
                let beside = chosen_by(&LOCAL_BARRIER, |next| {
                    let whole = [kind, next + swapped, next + 1 - swapped, 0];
                    vec![constant(0), single, whole]
                });
                assert_eq!(judged_single(&beside), "refused 15 3\n", "{kind}");
            }
        }
    }
    let slot = chosen_by(&LOCAL_BARRIER, |next| vec![constant(16), [5, next, 0, 0]]);
    assert_eq!(judged_nodes(&slot), "refused 15 3\n");
    // A part that is own makes the condition own, whatever its value.
    let door = chosen_by(&[BARRIER], |next| vec![constant(12), [4, next, 0, 0]]);
    assert_eq!(judged_nodes(&door), "refused 15 4\n");
    let both = chosen_by(&[BARRIER], |next| {
        vec![constant(0), OWN, [12, next, next + 1, 0]]
    });
    assert_eq!(judged_nodes(&both), "refused 15 5\n");
}

#[test]
fn fixed_passes_wherever_single_does() {
    assert_eq!(judged_single(&[constant(7), [17, 0, 0, 0]]), "accepted\n");
    assert_eq!(
        judged_nodes(&[OWN, constant(7), [24, 0, 0, 1]]),
        "accepted\n"
    );
    assert_eq!(
        judged_nodes(&[constant(1), BARRIER, repeat(0, 1)]),
        "accepted\n"
    );
    // A leave under such an if is taken by all.
    let nodes = [
        constant(1),
        LEAVE,
        BARRIER,
        choose(0, 1, 2),
        COUNT,
        repeat(4, 3),
    ];
    assert_eq!(judged_nodes(&nodes), "accepted\n");
}

#[test]
fn a_branch_is_dead_with_all_that_it_holds() {
    // Within a list, a loop, an if, and the branch that a further switch would take.
    let mut lists = LOCAL_BARRIER.to_vec();
    lists.extend([NOTHING, sequence(3, 4)]);
    let mut in_loop = LOCAL_BARRIER.to_vec();
    in_loop.extend([COUNT, repeat(4, 3)]);
    let mut in_if = LOCAL_BARRIER.to_vec();
    in_if.extend([COUNT, NOTHING, choose(4, 5, 3)]);
    let in_switch = switched(&LOCAL_BARRIER, 1, false);
    for nodes in [lists, in_loop, in_if, in_switch] {
        assert_eq!(judged_nodes(&switched(&nodes, 0, false)), "accepted\n");
        assert_eq!(judged_nodes(&switched(&nodes, 1, false)), "refused 15 3\n");
    }
    // And a dead branch is dead in a branch that will be taken.
    let dead = switched(&LOCAL_BARRIER, 0, false);
    assert_eq!(judged_nodes(&switched(&dead, 1, false)), "accepted\n");
}

#[test]
fn a_loop_that_is_never_entered_is_asked() {
    let mut nodes = LOCAL_BARRIER.to_vec();
    nodes.extend([constant(0), repeat(4, 3)]);
    assert_eq!(judged_nodes(&nodes), "refused 15 3\n");
}

#[test]
fn the_lowest_live_node_is_named() {
    // The same if dead and then live.
    let mut nodes = switched(&LOCAL_BARRIER, 0, false);
    nodes.extend([OWN, BARRIER, NOTHING, choose(7, 8, 9), sequence(6, 10)]);
    assert_eq!(judged_nodes(&nodes), "refused 15 10\n");
    nodes[4] = constant(1);
    assert_eq!(judged_nodes(&nodes), "refused 15 3\n");
    // The questions before it fail in the dead branch only.
    let mut nodes = switched(&[OWN, OWN, [24, 0, 0, 1]], 0, false);
    nodes.extend([OWN, BARRIER, repeat(6, 7), sequence(5, 8)]);
    assert_eq!(judged_nodes(&nodes), "refused 16 8\n");
}

/// What 15 and 16 say of an if and of a loop with an own condition and these nodes inside.
fn under_own_conditions(nodes: &[Node]) -> [String; 2] {
    let last = nodes.len() as u32 - 1;
    let in_if = chosen_by(nodes, |_| vec![OWN]);
    let mut in_loop = nodes.to_vec();
    in_loop.extend([OWN, repeat(last + 1, last)]);
    [judged_single(&in_if), judged_single(&in_loop)]
}

#[test]
fn dead_effects_do_not_count() {
    let single = [COUNT, [17, 0, 0, 0]];
    let broadcast = [COUNT, COUNT, [24, 0, 0, 1]];
    let exchange = [COUNT, [25, 0, 0, 0]];
    let effects: [&[Node]; 4] = [&[BARRIER], &single, &broadcast, &exchange];
    for nodes in effects {
        let off = switched(nodes, 0, false);
        assert_eq!(under_own_conditions(&off), ["accepted\n"; 2]);
        assert_eq!(judged_unflagged(&off), "accepted\n");
        let on = switched(nodes, 1, false);
        let (in_if, in_loop) = (on.len() + 2, on.len() + 1);
        let refused = [
            format!("refused 15 {in_if}\n"),
            format!("refused 16 {in_loop}\n"),
        ];
        assert_eq!(under_own_conditions(&on), refused);
    }
    let on = switched(&[BARRIER], 1, false);
    assert_eq!(judged_unflagged(&on), "refused 17 0\n");
}

#[test]
fn dead_calls_do_not_count() {
    // A barrier, and a procedure without flag that calls it by a switch.
    let judged = |value| {
        let nodes = [BARRIER, constant(value), call(0), NOTHING, choose(1, 2, 3)];
        let mut table = table_with(&[0, 4], &nodes);
        table[13] = 0;
        check_table(&table)
    };
    assert_eq!(judged(0), "accepted\n");
    assert_eq!(judged(1), "refused 17 1\n");
}

/// While there are processes: these nodes, of which the last is the statement, then a barrier.
fn loud_loop(nodes: &[Node]) -> String {
    let last = nodes.len() as u32 - 1;
    let mut nodes = nodes.to_vec();
    nodes.extend([BARRIER, sequence(last, last + 1), COUNT]);
    nodes.push(repeat(last + 3, last + 2));
    judged_nodes(&nodes)
}

#[test]
fn dead_leaves_do_not_count() {
    let local_leave = [OWN, LEAVE, NOTHING, choose(0, 1, 2)];
    assert_eq!(loud_loop(&switched(&local_leave, 0, false)), "accepted\n");
    assert_eq!(
        loud_loop(&switched(&local_leave, 1, false)),
        "refused 16 10\n"
    );
    // The switch within the own condition.
    let inside = |value| chosen_by(&switched(&[LEAVE], value, false), |_| vec![OWN]);
    assert_eq!(loud_loop(&inside(0)), "accepted\n");
    assert_eq!(loud_loop(&inside(1)), "refused 16 10\n");
}

#[test]
fn earlier_questions_are_put_to_dead_branches() {
    let judged = |nodes: &[Node]| judged_nodes(&switched(nodes, 0, false));
    assert_eq!(judged(&[[27, 0, 0, 0]]), "refused 7 0\n");
    assert_eq!(judged(&[[23, 1, 0, 0]]), "refused 8 0\n");
    assert_eq!(judged(&[COUNT, [17, 1, 0, 0]]), "refused 9 1\n");
    assert_eq!(judged(&[COUNT, BARRIER]), "refused 11 0\n");
    assert_eq!(judged(&[call(0)]), "refused 12 0\n");
    assert_eq!(judged(&[LEAVE]), "refused 26 0\n");
}

#[test]
fn dead_branches_are_never_run() {
    // If 0 less 1 then nothing, else the barrier of some processes.
    let mut nodes = chosen_by(&LOCAL_BARRIER, |next| {
        vec![constant(0), constant(1), [7, next, next + 1, 0]]
    });
    let last = nodes.len() - 1;
    nodes[last].swap(2, 3);
    let table = table_of(&nodes);
    assert_eq!(check_table(&table), "accepted\n");
    assert_eq!(
        run(&table, 2, &[1, 1, 0, 0]),
        "bank what node site\n1 moved 0 going\n1 finished 0 going\n\
         0 moved 0 going\n0 finished 0 done\n"
    );
}
