//! Elections in Pabulib's format.
use crate::records::Records;
use indexmap::IndexSet;
use std::error::Error;

#[derive(Default)]
pub struct Election {
    /// In millionths, as all amounts.
    pub limit: u64,
    pub ids: IndexSet<String>,
    pub costs: Vec<u64>,
    pub funded: Vec<bool>,
    /// The projects that each voter approves, from 0 and rising.
    pub ballots: Vec<Vec<u32>>,
}

/// An amount in millionths.
fn money(text: &str) -> Option<u64> {
    let (units, fraction) = text.split_once(['.', ',']).unwrap_or((text, "0"));
    let are_digits = |text: &str| !text.is_empty() && text.bytes().all(|byte| byte.is_ascii_digit());
    if !are_digits(units) || !are_digits(fraction) {
        return None;
    }
    let fraction = fraction.trim_end_matches('0');
    if fraction.len() > 6 {
        return None;
    }
    let millionths = format!("{fraction:0<6}").parse::<u64>().ok()?;
    let amount = units.parse::<u64>().ok()?.checked_mul(1_000_000)?.checked_add(millionths)?;
    (amount <= 1_000_000_000_000_000_000).then_some(amount)
}

impl Election {
    pub fn read(bytes: &[u8]) -> Result<Election, Box<dyn Error>> {
        let mut election = Election::default();
        let mut records = Records::new(bytes, b';');
        records.need()?;
        if !records.is(&["META"]) {
            return Err("no META".into());
        }
        election.read_meta(&mut records)?;
        election.read_projects(&mut records)?;
        election.read_votes(&mut records)?;
        Ok(election)
    }

    fn read_meta(&mut self, records: &mut Records) -> Result<(), Box<dyn Error>> {
        records.need()?;
        loop {
            records.need()?;
            if records.is(&["PROJECTS"]) {
                return Ok(());
            }
            if records.cell(0).eq_ignore_ascii_case("budget") {
                self.limit = money(records.cell(1)).ok_or("no amount")?;
            }
        }
    }

    fn read_projects(&mut self, records: &mut Records) -> Result<(), Box<dyn Error>> {
        records.need()?;
        let id = records.column("project_id").ok_or("no ids")?;
        let cost = records.column("cost").ok_or("no costs")?;
        let selected = records.column("selected").ok_or("no outcome")?;
        loop {
            records.need()?;
            if records.is(&["VOTES"]) {
                return Ok(());
            }
            if !self.ids.insert(records.cell(id).to_string()) {
                return Err("a project twice".into());
            }
            self.costs.push(money(records.cell(cost)).ok_or("no amount")?);
            self.funded.push(records.cell(selected) == "1");
        }
    }

    fn read_votes(&mut self, records: &mut Records) -> Result<(), Box<dyn Error>> {
        records.need()?;
        let vote = records.column("vote").ok_or("no votes")?;
        while records.next()? {
            let mut ballot = Vec::new();
            for id in records.cell(vote).split(',').map(str::trim).filter(|id| !id.is_empty()) {
                ballot.push(self.ids.get_index_of(id).ok_or("an unknown project")? as u32);
            }
            ballot.sort_unstable();
            ballot.dedup();
            self.ballots.push(ballot);
        }
        Ok(())
    }
}
