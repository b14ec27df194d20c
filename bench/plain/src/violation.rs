//! Violation certificates and outcome files.
use crate::election::Election;
use crate::records::Records;
use std::error::Error;

/// Funds the projects that an outcome file names, and no other.
pub fn read_outcome(election: &mut Election, bytes: &[u8]) -> Result<(), Box<dyn Error>> {
    let mut records = Records::new(bytes, b',');
    records.need()?;
    if !records.is(&["pb-outcome", "1"]) {
        return Err("no outcome file".into());
    }
    election.funded.fill(false);
    while records.next()? {
        let project = election.ids.get_index_of(records.cell(0)).ok_or("an unknown project")?;
        election.funded[project] = true;
    }
    Ok(())
}

/// Of each voter whether it is of the group, and of each project whether it is demanded.
pub struct Violation {
    group: Vec<bool>,
    demand: Vec<bool>,
}

impl Violation {
    pub fn read(election: &Election, bytes: &[u8]) -> Result<Violation, Box<dyn Error>> {
        let mut violation = Violation {
            group: vec![false; election.ballots.len()],
            demand: vec![false; election.costs.len()],
        };
        let mut records = Records::new(bytes, b',');
        records.need()?;
        if !records.is(&["pb-violation", "1"]) {
            return Err("no violation certificate".into());
        }
        while records.next()? {
            let mark = match records.cell(0) {
                "voter" => violation.group.get_mut(records.cell(1).parse::<usize>()?.wrapping_sub(1)),
                "project" => violation.demand.get_mut(election.ids.get_index_of(records.cell(1)).ok_or("an unknown project")?),
                _ => return Err("no row".into()),
            };
            if std::mem::replace(mark.ok_or("an unknown voter")?, true) {
                return Err("named twice".into());
            }
        }
        Ok(violation)
    }

    /// Whether each member approves all that is demanded, the group's share of the limit suffices for it, and each
    /// member gets fewer projects than are demanded.
    pub fn holds(&self, election: &Election) -> bool {
        let members = self.group.iter().filter(|member| **member).count();
        let demanded = self.demand.iter().filter(|demanded| **demanded).count();
        let cost: u128 = (0..election.costs.len()).filter(|j| self.demand[*j]).map(|j| u128::from(election.costs[j])).sum();
        let share = members as u128 * u128::from(election.limit);
        members > 0
            && share >= election.ballots.len() as u128 * cost
            && self.group.iter().zip(&election.ballots).filter(|(member, _)| **member).all(|(_, ballot)| {
                let approved = ballot.iter().filter(|j| self.demand[**j as usize]).count();
                let funded = ballot.iter().filter(|j| election.funded[**j as usize]).count();
                approved == demanded && funded < demanded
            })
    }
}
