//! Routines without a branch, with as many histories as one likes: what the tests
//! and the benchmark count by arithmetic.

use reference::edges;
use reference::sheet::{Action, Objective, Program, Sheet};

/// The actions one after the other.
pub fn sequence(actions: &[u8]) -> Program {
    let actions = actions.iter().rev();
    actions.fold(Program::End, |rest, &action| Program::act(action, rest))
}

/// How many replies the actions of a straight program may have, one after the
/// other, so that it has exactly so many histories.
pub fn reply_counts(mut count: u64) -> Vec<u8> {
    let mut replies = Vec::new();
    while count > 0 {
        let most = (1..=8)
            .rev()
            .find(|&most| count.is_multiple_of(most))
            .unwrap();
        replies.push(most as u8);
        count = count / most - 1;
    }
    replies
}

/// How many histories that is: those behind a reply and the one with it, for each reply.
pub fn histories(replies: &[u8]) -> u128 {
    let replies = replies.iter().rev();
    replies.fold(0, |behind, &most| u128::from(most) * (1 + behind))
}

/// A straight program of probes with these numbers of replies, all of them true, of
/// one fact; 1 is a change by which that stays.
pub fn straight(replies: &[u8]) -> Sheet {
    let mut actions = vec![Action::Change(Objective::New(0).iff(Objective::Fact(0)))];
    actions.extend((2..=8).map(|replies| Action::Probe(vec![Objective::True; replies])));
    let numbers: Vec<u8> = replies.iter().map(|replies| replies - 1).collect();
    Sheet {
        actions,
        program: sequence(&numbers),
        ..edges::plain()
    }
}

/// A valid routine with so many histories.
pub fn counted(count: u64) -> Sheet {
    straight(&reply_counts(count))
}

/// So many probes of one fact, of three replies of which one tells it and two tell
/// nothing, and a goal that always holds: few places, all of them of small numbers.
pub fn seldom_told(probes: usize) -> Sheet {
    let replies = vec![Objective::True, Objective::Fact(0), Objective::True];
    Sheet {
        actions: vec![Action::Probe(replies)],
        program: sequence(&vec![0; probes]),
        ..edges::plain()
    }
}
