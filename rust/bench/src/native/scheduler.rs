//! Turns shared out among a team's processes. The table's questions are asked once.

use super::machine::Team;
use super::refusal::refused;
use finchchaise::{Refusal, Served};

pub fn serve(table: &[u8], state: &mut [u32], roll: &mut [u32], last: u32, turns: u32) -> Served {
    let mut served = Served {
        made: 0,
        last,
        refusal: None,
    };
    let result = match Team::asked(table, state, roll, last) {
        Ok(mut team) => make_turns(&mut team, turns, &mut served),
        Err(refusal) => Err(refusal),
    };
    served.refusal = result.err();
    served
}

/// Stops before a turn that would be refused.
fn make_turns(team: &mut Team, turns: u32, served: &mut Served) -> Result<(), Refusal> {
    let mut unsound = None;
    while served.made < turns {
        if let Some(process) = unsound {
            return refused(23, process);
        }
        let Some(process) = team.next_running(served.last as usize) else {
            break;
        };
        let event = team.turn(process)?;
        served.made += 1;
        served.last = process as u32;
        unsound = team.first_unsound_after(event, process);
    }
    Ok(())
}
